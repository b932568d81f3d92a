// Stand-in for slg/aggregate.rs: nothing of it is used.
