//! The refusals of the judge in words.

/// What the number of a refusal of a plan's bytes says; 17 to 20 are about what a caller lends or types, and are not among them.
pub fn words(number: u32) -> &'static str {
    match number {
        1 => "the plan has fewer than 11 bytes",
        2 => "a count of the head is outside its range",
        3 => "the plan is shorter than its sections before the pattern",
        4 => "a filling bit before the pattern is one",
        5 => "a job has no nodes, or the jobs do not have all nodes together",
        6 => "an entry or exit is not a node of its job, or a service's exit is not its entry",
        7 => "a step's two ends are not nodes of one and the same job",
        8 => "a step leaves the exit of its job",
        9 => "a call or accept names a channel that there is not",
        10 => "the bytes end inside an item of the pattern",
        11 => "an item of the pattern has a kind that there is not",
        12 => "a set of the pattern holds an event that is not watched",
        13 => "an operator of the pattern finds too few operands",
        14 => "the pattern's items do not make one pattern",
        15 => "a last filling bit is one, or a byte follows the plan",
        16 => "the pattern's automaton has more than 64 states",
        21 => "all jobs are services, and no run can be complete",
        _ => "a refusal that there is not",
    }
}
