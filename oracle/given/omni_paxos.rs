// Stand-in for the missing omni_paxos.rs: the configuration and the errors that the text names, and the way in for the comparison.
use crate::util::{ConfigurationId, FlexibleQuorum, NodeId};

#[path = "plain.rs"]
pub mod plain;
pub use crate::sequence_paxos::window::Node;

#[derive(Clone, Debug, PartialEq)]
pub struct ClusterConfig {
    pub configuration_id: ConfigurationId,
    pub nodes: Vec<NodeId>,
    pub flexible_quorum: Option<FlexibleQuorum>,
}

#[derive(Clone, Debug)]
pub struct ServerConfig {
    pub pid: NodeId,
    pub buffer_size: usize,
    pub batch_size: usize,
    pub leader_priority: u32,
}

#[derive(Clone, Debug)]
pub struct OmniPaxosConfig {
    pub cluster_config: ClusterConfig,
    pub server_config: ServerConfig,
}

#[derive(Debug)]
pub enum CompactionErr {
    UndecidedIndex(usize),
    NotAllDecided(usize),
    TrimmedIndex(usize),
    NotCurrentLeader(NodeId),
}

impl std::fmt::Display for CompactionErr {
    fn fmt(&self, f: &mut std::fmt::Formatter<'_>) -> std::fmt::Result {
        write!(f, "{:?}", self)
    }
}

impl std::error::Error for CompactionErr {}

#[derive(Debug)]
pub enum ProposeErr<T> {
    PendingReconfigEntry(T),
    PendingReconfigConfig(ClusterConfig, Option<Vec<u8>>),
}
