//! A cluster through the linked library: entries are decided everywhere and the books are equal; a refused step alters nothing.
use hire_depots::{words, Depot};

fn cluster(n: u64) -> Vec<Depot> {
    (1..=n).map(|pid| Depot::fresh(n, pid, None)).collect()
}

/// Hands every waiting message to its receiver until nothing waits.
fn settle(depots: &mut [Depot]) {
    loop {
        let mut moved = false;
        for i in 0..depots.len() {
            let waiting: Vec<_> = depots[i].queue().map(|(h, e)| (h, e.to_vec())).collect();
            let answer = depots[i].drain();
            assert_eq!((answer.no, answer.handed_out), (0, waiting.len() as u64));
            for (head, entries) in waiting {
                moved = true;
                depots[head[0] as usize - 1].receive(i as u64 + 1, &head, &entries);
            }
        }
        if !moved {
            return;
        }
    }
}

#[test]
fn three_depots_decide() {
    let mut d = cluster(3);
    assert_eq!(d[0].leader(1, 0, 1).no, 0);
    settle(&mut d);
    assert_eq!(d[0].propose(&[5127]).no, 0);
    assert_eq!(d[2].propose(&[7431]).no, 0);
    settle(&mut d);
    for x in &d {
        assert_eq!(x.decided(), [5127, 7431]);
        assert_eq!(x.report().unwrap(), "pump days\n7 4\ntotal 4\n");
    }
    assert!(d[0].book == d[1].book && d[1].book == d[2].book);
}

#[test]
fn a_restart_makes_the_book_again() {
    let mut d = cluster(3);
    d[0].leader(1, 0, 1);
    settle(&mut d);
    d[0].propose(&[5127, 7431]);
    settle(&mut d);
    d[1].book[0] = 3;
    assert_eq!(d[1].restart().no, 0);
    assert!(d[1].book == d[0].book);
}

#[test]
fn refused_steps_alter_nothing() {
    let mut d = cluster(3);
    for (no, made) in [
        (4, Box::new(|x: &mut Depot| x.propose(&[])) as Box<dyn Fn(&mut Depot) -> hire_depots::Answer>),
        (3, Box::new(|x: &mut Depot| x.reconnect(4))),
        (4, Box::new(|x: &mut Depot| x.propose(&[33_554_432]))),
        (4, Box::new(|x: &mut Depot| x.propose(&[1; 17]))),
    ] {
        let before = d[0].clone();
        assert_eq!(made(&mut d[0]).no, no);
        assert!(before == d[0]);
    }
    let mut odd = Depot::fresh(5, 1, Some((3, 2)));
    assert_eq!(odd.drain().no, 1);
    let mut broken = Depot::fresh(3, 1, None);
    broken.record[words::DECIDED] = 1;
    assert_eq!(broken.drain().no, 2);
    let mut none = Depot::fresh(3, 1, None);
    none.record[9] = 4;
    assert_eq!(none.drain().no, 2);
}

#[test]
fn buffered_proposals_are_sixteen() {
    let mut d = Depot::fresh(3, 1, None);
    assert_eq!(d.propose(&[0; 16]).no, 0);
    assert_eq!(d.propose(&[0]).no, 8);
}
