// Stand-in for the missing utils/mod.rs: only the logger lives there, and logging is off.
