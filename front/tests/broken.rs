//! Files with errors, each with all that is told of it, and how that is shown.
use tuft::diagnostic::{render, Severity};
use tuft::read::read;

/// What a file has, its text, and all of its errors.
type Case = (&'static str, &'static str, &'static [&'static str]);

const BROKEN: &[Case] = &[
    (
        "An empty file.",
        "",
        &[
            "1:1: the file does not begin with 'plan' and a name",
        ],
    ),
    (
        "Comments alone.",
        "\
# nothing

",
        &[
            "1:1: the file does not begin with 'plan' and a name",
        ],
    ),
    (
        "No 'plan'.",
        "\
event a
channel c gives a
",
        &[
            "1:1: the file does not begin with 'plan' and a name",
        ],
    ),
    (
        "'plan' misspelt.",
        "\
pln x
event a
",
        &[
            "1:1: unknown word 'pln'; did you mean 'plan'?",
        ],
    ),
    (
        "'plan' behind something else.",
        "\
event a
plan x
",
        &[
            "1:1: the file does not begin with 'plan' and a name",
        ],
    ),
    (
        "'plan' without a name.",
        "\
plan
event a
",
        &[
            "1:5: after 'plan' comes a name",
        ],
    ),
    (
        "A word of the notation in the place of a name.",
        "\
plan to
event times watched
",
        &[
            "1:6: 'to' is a word of the notation and no name",
            "2:7: 'times' is a word of the notation and no name",
        ],
    ),
    (
        "Two names of a plan.",
        "\
plan two words
",
        &[
            "1:10: the line ends behind 'two', and 'words' is too much",
        ],
    ),
    (
        "Two plans.",
        "\
plan x
plan y
",
        &[
            "2:1: the plan has its name in line 1; a file holds one plan",
        ],
    ),
    (
        "A declaration misspelt: what it declares is known.",
        "\
plan x
event e
chanel c gives e
servce m from i
  i accepts c then i
jub a from s to t
  s calls c then t
",
        &[
            "3:1: unknown word 'chanel'; did you mean 'channel'?",
            "4:1: unknown word 'servce'; did you mean 'service'?",
            "6:1: unknown word 'jub'; did you mean 'job'?",
        ],
    ),
    (
        "A declaration misspelt behind a job.",
        "\
plan x
job a from s to t
  s gives e then t
evnt e
",
        &[
            "4:1: unknown word 'evnt'; did you mean 'event'?",
        ],
    ),
    (
        "No declaration at all: one error for the line and all that follows it.",
        "\
plan x
foo bar
  baz then qux
; 3
event e
rule r
  every bar ; e
",
        &[
            "2:1: a line outside of jobs and rules begins with 'event', 'channel', 'job', 'jobs', 'service', 'services' or 'rule'",
        ],
    ),
    (
        "Lists without names, and with other things.",
        "\
plan x
event
channel gives
event a ; b
channel c d 7
",
        &[
            "2:6: after 'event' comes a name",
            "3:9: 'gives' is a word of the notation and no name",
            "4:9: ';' has no place here",
            "5:13: '7' has no place here",
        ],
    ),
    (
        "Channels.",
        "\
plan x
event e
channel
channel c gives
channel d gives e f
channel f gives 3
",
        &[
            "3:8: after 'channel' comes a name",
            "4:16: after 'gives' comes an event",
            "5:19: the line ends behind 'e', and 'f' is too much",
            "6:17: after 'gives' comes an event",
        ],
    ),
    (
        "A pattern in the line of its rule.",
        "\
plan x
event a b
rule r every a ; c
  watch b
rule q watch a
  never b
",
        &[
            "3:8: 'every' begins a line of its own",
            "3:18: no event 'c'; 'event c' declares it",
            "5:8: 'watch' begins a line of its own",
        ],
    ),
    (
        "Commas: one error a line.",
        "\
plan x
event a, b, c
event d,e
",
        &[
            "2:8: ',' is no part of the notation: names stand one after the other, with blanks between them; in a pattern ';' says what comes next",
            "3:8: ',' is no part of the notation: names stand one after the other, with blanks between them; in a pattern ';' says what comes next",
        ],
    ),
    (
        "Strange characters. Those at the ends of words are left out.",
        "\
plan x
event \"a\" b.c d:
job j: from s to t
  s -> t
  s gives a = t
  => t
  s gives b.c then t!
",
        &[
            "2:7: '\"' is no part of the notation",
            "2:12: '.' is no part of the notation",
            "2:16: ':' is no part of the notation",
            "3:6: ':' is no part of the notation",
            "4:6: '>' is no part of the notation",
            "5:13: '=' is no part of the notation",
            "6:3: '=' is no part of the notation",
            "6:4: '>' is no part of the notation",
            "7:12: '.' is no part of the notation",
            "7:21: '!' is no part of the notation",
        ],
    ),
    (
        "Characters that are not seen.",
        "\
plan x
event a\u{200b}b c\u{a0}d
",
        &[
            "2:8: U+200B is no part of the notation",
            "2:12: U+00A0 is no part of the notation",
        ],
    ),
    (
        "Names that begin with no letter.",
        "\
plan x
event 3rd -x 12 _ok
",
        &[
            "2:7: '3rd' is no name: a name begins with a letter or '_'",
            "2:11: '-x' is no name: a name begins with a letter or '_'",
            "2:14: '12' has no place here",
        ],
    ),
    (
        "A name that is too long, told once.",
        "\
plan x
event aaaaaaaaaabbbbbbbbbbccccccccccddddddddddeeeeeeeeeeffffffffffgggg aaaaaaaaaabbbbbbbbbbccccccccccddddddddddeeeeeeeeeeffffffffffggggg
rule r
  every aaaaaaaaaabbbbbbbbbbccccccccccddddddddddeeeeeeeeeeffffffffffggggg
",
        &[
            "2:72: the name has 65 characters, and at most 64 are possible",
        ],
    ),
    (
        "Names declared twice.",
        "\
plan x
event a b a
channel c
channel c gives b
job j from s to t
  s then t
jobs k j from s to t
  s then t
rule r
  every a
rule r
  never a
",
        &[
            "2:11: event 'a' is declared twice; the first is in line 2",
            "4:9: channel 'c' is declared twice; the first is in line 3",
            "7:8: job 'j' is declared twice; the first is in line 5",
            "11:6: rule 'r' is declared twice; the first is in line 9",
        ],
    ),
    (
        "Copies: their names are declared too, and have at most 64 characters.",
        "\
plan x
job worker times 3 from s to t
  s then t
job worker-2 from s to t
  s then t
job worker times 2 from s to t
job aaaaaaaaaabbbbbbbbbbccccccccccddddddddddeeeeeeeeeeffffffffffggg times 2 from s to t
  s then t
",
        &[
            "4:5: job 'worker-2' is declared twice; the first is in line 2",
            "6:5: job 'worker-1' is declared twice; the first is in line 2",
            "7:5: the names of the copies have up to 65 characters, and at most 64 are possible",
        ],
    ),
    (
        "Names that are nearly known.",
        "\
plan x
event prepared handed
channel close
job j from s to t
  s gives prepard then u calls cloze then t
rule r
  every prepared ; [^handd]
  watch hnaded
",
        &[
            "5:11: no event 'prepard'; did you mean 'prepared'?",
            "5:32: no channel 'cloze'; did you mean 'close'?",
            "7:22: no event 'handd'; did you mean 'handed'?",
            "8:9: no event 'hnaded'; did you mean 'handed'?",
        ],
    ),
    (
        "Names that are not nearly known. One letter is near nothing.",
        "\
plan x
event a prepared
job j from s to t
  s gives b then u gives pared then t
  s calls nothing then t
",
        &[
            "4:11: no event 'b'; 'event b' declares it",
            "4:26: no event 'pared'; 'event pared' declares it",
            "5:11: no channel 'nothing'; 'channel nothing' declares it",
        ],
    ),
    (
        "Of two that are near the nearer, and of two that are equally near the first.",
        "\
plan x
event stop-all step-one step-two
rule r
  every stop-ill
rule s
  every step-on
rule t
  every step-too
rule u
  every step-tne
",
        &[
            "4:9: no event 'stop-ill'; did you mean 'stop-all'?",
            "6:9: no event 'step-on'; did you mean 'step-one'?",
            "8:9: no event 'step-too'; did you mean 'step-two'?",
            "10:9: no event 'step-tne'; did you mean 'step-one'?",
        ],
    ),
    (
        "Events and channels in each other's place.",
        "\
plan x
event handed
channel hand-over gives hand-over
job j from s to t
  s calls handed then u accepts handed then t
  s gives hand-over then t
rule r
  every hand-over | [hand-over]
  watch hand-over
",
        &[
            "3:25: 'hand-over' is a channel; 'gives' takes an event",
            "5:11: 'handed' is an event; 'calls' takes a channel",
            "5:33: 'handed' is an event; 'accepts' takes a channel",
            "6:11: 'hand-over' is a channel; 'gives' takes an event",
            "8:9: 'hand-over' is a channel; a pattern takes events",
            "8:22: 'hand-over' is a channel; a pattern takes events",
            "9:9: 'hand-over' is a channel; 'watch' takes events",
        ],
    ),
    (
        "Nodes that are not listed, or twice.",
        "\
plan x
job first from start to end
  nodes start ready ready
  start then redy then ready then end
  nodes start
",
        &[
            "2:25: no node 'end' in job 'first'",
            "3:21: node 'ready' is listed twice; the first is in line 3",
            "4:14: no node 'redy' in job 'first'; did you mean 'ready'?",
            "4:35: no node 'end' in job 'first'",
            "5:9: node 'start' is listed twice; the first is in line 3",
        ],
    ),
    (
        "Heads of jobs that break off.",
        "\
plan x
job
job a
job b from
job c from s
job d from s to
job e times
job f times 2
jobs
service
service m
",
        &[
            "2:4: after 'job' comes a name",
            "3:6: after 'a' comes 'from' and a node",
            "4:11: after 'from' comes a node",
            "5:13: after 'from s' comes 'to' and a node",
            "6:16: after 'to' comes a node",
            "7:12: after 'times' comes a number from 1 to 16",
            "8:14: after '2' comes 'from' and a node",
            "9:5: after 'jobs' comes a name",
            "10:8: after 'service' comes a name",
            "11:10: after 'm' comes 'from' and a node",
        ],
    ),
    (
        "Heads of jobs with other words.",
        "\
plan x
job a form s to t
job b from s two t
job c from from to t
job d from s to t u
job e f from s to t
jobs g h times 3 from s to t
job i times 17 from s to t
job j times 0 from s to t
job k times many from s to t
job times 3 from s to t
service m from s to t
service n o from s
job import start to end
",
        &[
            "2:7: unknown word 'form'; did you mean 'from'?",
            "3:14: unknown word 'two'; did you mean 'to'?",
            "4:12: 'from' is a word of the notation and no name",
            "5:19: the line ends behind 't', and 'u' is too much",
            "6:7: 'job' takes one name; several stand behind 'jobs'",
            "7:10: 'times' stands behind 'job' or 'service' and one name",
            "8:13: after 'times' comes a number from 1 to 16",
            "9:13: after 'times' comes a number from 1 to 16",
            "10:13: after 'times' comes a number from 1 to 16",
            "11:5: 'times' is a word of the notation and no name",
            "12:18: a service never ends: it takes no 'to'",
            "13:11: 'service' takes one name; several stand behind 'services'",
            "14:12: after 'import' comes 'from' and a node",
        ],
    ),
    (
        "A head does not go on in the next line.",
        "\
plan x
job a from s
  to t
  s then t
",
        &[
            "2:13: after 'from s' comes 'to' and a node",
        ],
    ),
    (
        "Chains with errors.",
        "\
plan x
event e
channel c
job a from s to t
  s
  s t
  s gives e t
  s calls then t
  s gives e then
  nodes s t
  s gives e
  s accepts
job b from s to t
  s then t u
  s give e then t
  s gives e than t
  s then to
  s then t ; s then t
",
        &[
            "5:4: after node 's' comes 'gives', 'calls', 'accepts' or 'then'",
            "6:5: after node 's' comes 'gives', 'calls', 'accepts' or 'then'",
            "7:13: after 'gives e' comes 'then' and a node",
            "8:11: 'then' is a word of the notation and no name",
            "9:17: after 'then' comes a node",
            "11:12: after 'gives e' comes 'then' and a node",
            "12:12: after 'accepts' comes a channel",
            "14:12: after node 't' comes 'gives', 'calls', 'accepts' or 'then', or the line ends",
            "15:5: unknown word 'give'; did you mean 'gives'?",
            "16:13: unknown word 'than'; did you mean 'then'?",
            "17:10: 'to' is a word of the notation and no name",
            "18:12: after node 't' comes 'gives', 'calls', 'accepts' or 'then', or the line ends",
        ],
    ),
    (
        "Lines that begin no chain.",
        "\
plan x
job a from s to t
  then t
  ; t
  from s
  s then t
",
        &[
            "3:3: a line of a job begins with a node or 'nodes'",
        ],
    ),
    (
        "Moves that leave the exit.",
        "\
plan x
event e
job first from start to end
  start then end gives e then start
  end then end
service s from end
  end then end
",
        &[
            "4:14: nothing may leave 'end', where job 'first' ends",
            "5:3: nothing may leave 'end', where job 'first' ends",
        ],
    ),
    (
        "All jobs are services.",
        "\
plan x
services a b from s
  s then s
",
        &[
            "2:10: all jobs are services; at least one job has to end",
        ],
    ),
    (
        "Lines that stand outside of what they belong to.",
        "\
plan x
nodes a b
watch e
event e
job j from s to t
  s then t
  every e
  | e
  watch e
rule r
  nodes s t
  every e
",
        &[
            "2:1: 'nodes' stands in a job",
            "7:3: 'every' stands in a rule",
            "9:3: 'watch' stands in a rule",
            "11:3: 'nodes' stands in a job",
        ],
    ),
    (
        "Rules without a pattern, or with two.",
        "\
plan x
event a b
rule one
rule two
  watch a
  watch
rule three
  every a
  never b ; c
  watch d
rule
  every a
",
        &[
            "3:6: the rule has neither 'every' nor 'never'",
            "4:6: the rule has neither 'every' nor 'never'",
            "6:8: after 'watch' comes a name",
            "9:3: the rule has its pattern in line 8; a rule has one 'every' or 'never'",
            "10:9: no event 'd'; 'event d' declares it",
            "11:5: after 'rule' comes a name",
        ],
    ),
    (
        "Lines of rules misspelt.",
        "\
plan x
event a b
rule one
  evry a
rule two
  every a
  wach b
rule three
  blue
  every a
rule four
  every a
role five
  every a
",
        &[
            "4:3: unknown word 'evry'; did you mean 'every'?",
            "7:3: unknown word 'wach'; did you mean 'watch'?",
            "9:3: a line of a rule begins with 'every', 'never' or 'watch'",
            "13:1: unknown word 'role'; did you mean 'rule'?",
        ],
    ),
    (
        "Brackets.",
        "\
plan x
event a b
rule r1
  every (a ; b
rule r2
  every a ; b)
rule r3
  every [a b
rule r4
  every a] ; b
rule r5
  every ()
rule r6
  every )
rule r7
  never (a | (b)
  watch c
rule r8
  every (a ; b]
rule r9
  every (
",
        &[
            "4:9: this '(' is not closed",
            "6:14: this ')' closes nothing",
            "8:9: this '[' is not closed",
            "10:10: this ']' closes nothing",
            "12:10: no pattern stands between '(' and ')'; the empty string is 0",
            "14:9: this ')' closes nothing",
            "16:9: this '(' is not closed",
            "17:9: no event 'c'; 'event c' declares it",
            "19:15: this ']' closes nothing",
            "21:9: this '(' is not closed",
        ],
    ),
    (
        "Operators without a pattern on one side.",
        "\
plan x
event a b
rule r1
  every ; a
rule r2
  every a ;
rule r3
  every a ; ; b
rule r4
  every
rule r5
  every a | * b
rule r6
  every (a ; ) | b
rule r7
  every times 3
",
        &[
            "4:9: no pattern stands before ';'",
            "6:11: no pattern stands behind ';'",
            "8:13: no pattern stands before ';'",
            "10:3: no pattern stands behind 'every'",
            "12:13: no pattern stands before '*'",
            "14:12: no pattern stands behind ';'",
            "16:9: no pattern stands before 'times'",
        ],
    ),
    (
        "Patterns without an operator.",
        "\
plan x
event a b
rule r1
  every a b
rule r2
  every a
  b
rule r3
  every (a [b])
rule r4
  every a 0
",
        &[
            "4:11: before 'b' stands neither ';' nor '|'",
            "7:3: before 'b' stands neither ';' nor '|'",
            "9:12: before '[' stands neither ';' nor '|'",
            "11:11: before '0' stands neither ';' nor '|'",
        ],
    ),
    (
        "Signs and words of the notation where they have no place.",
        "\
plan x
event a b
rule r1
  every ^a
rule r2
  every [a ^b]
rule r3
  every a ^ b
rule r4
  every [a ; b]
rule r5
  every a ; to
rule r6
  every a gives b
rule r7
  every [a from]
",
        &[
            "4:9: '^' stands only right behind '['",
            "6:12: '^' stands only right behind '['",
            "8:11: '^' stands only right behind '['",
            "10:12: ';' has no place between '[' and ']'",
            "12:13: 'to' is a word of the notation and no name",
            "14:11: 'gives' is a word of the notation and no name",
            "16:12: 'from' is a word of the notation and no name",
        ],
    ),
    (
        "Numbers in patterns.",
        "\
plan x
event a
rule r1
  every 7 ; a
rule r2
  every a times
rule r3
  every a times 65
rule r4
  every a times 0 ; a
rule r5
  every a times a
rule r6
  every 00
rule r7
  every a times 99999999999999999999
",
        &[
            "4:9: '7' is no pattern; 0 is the empty string, and 'times 7' repeats what stands before it",
            "6:16: after 'times' comes a number from 1 to 64",
            "8:17: after 'times' comes a number from 1 to 64",
            "10:17: after 'times' comes a number from 1 to 64",
            "12:17: after 'times' comes a number from 1 to 64",
            "14:9: '00' is no pattern; 0 is the empty string",
            "16:17: after 'times' comes a number from 1 to 64",
        ],
    ),
    (
        "A broken pattern has one error of notation; names before it, and other lines, are looked up.",
        "\
plan x
event a
rule r
  every prep ; a a ; ; ) times
  watch b
",
        &[
            "4:9: no event 'prep'; 'event prep' declares it",
            "4:18: before 'a' stands neither ';' nor '|'",
            "5:9: no event 'b'; 'event b' declares it",
        ],
    ),
    (
        "Too many items.",
        "\
plan x
event a
rule r
  every (a+ ; (a? times 2)*) times 6
rule s
  every ((a times 60) times 60)+
",
        &[
            "4:3: the pattern of rule 'r' needs 83 items, and at most 64 are possible: one for each event, set, 0, ;, | and *, those that shorthand stands for included",
            "6:3: the pattern of rule 's' needs more than 1000 items, and at most 64 are possible: one for each event, set, 0, ;, | and *, those that shorthand stands for included",
        ],
    ),
    (
        "Several errors of all sorts.",
        "\
plan x
event prepared prepared
channel hand-over gives handed
job first from start to end
  start gives prepard then ready calls handover then end
  end then start
servise second from waiting
  waiting accepts hand-over the working
rule in-order
  every prepared ; (handed
",
        &[
            "2:16: event 'prepared' is declared twice; the first is in line 2",
            "3:25: no event 'handed'; 'event handed' declares it",
            "5:15: no event 'prepard'; did you mean 'prepared'?",
            "5:40: no channel 'handover'; did you mean 'hand-over'?",
            "6:3: nothing may leave 'end', where job 'first' ends",
            "7:1: unknown word 'servise'; did you mean 'service'?",
            "8:29: unknown word 'the'; did you mean 'then'?",
            "10:20: this '(' is not closed",
            "10:21: no event 'handed'; 'event handed' declares it",
        ],
    ),
];

/// Files without errors, and with all of their warnings.
const WARNED: &[Case] = &[
    (
        "Nothing to warn of: a channel that no job uses, an event that no rule watches, a plan without jobs, rules or events.",
        "plan x\nevent a\nchannel c gives a\n",
        &[],
    ),
    (
        "Calls that no other job accepts, and accepts that no other job calls.",
        "\
plan x
event met
channel c d e gives met
channel f
job a from s to t
  s calls c then s accepts d then s calls f then s accepts f then t
job b from s to t
  s calls c then t
job one from s to t
  s calls e then t
  s accepts e then t
",
        &[
            "3:9: channel 'c' is called by jobs 'a' and 'b', and no other job accepts it: these calls never happen",
            "3:11: channel 'd' is accepted by job 'a', and no other job calls it: these accepts never happen",
            "3:13: channel 'e' is called by job 'one', and no other job accepts it: these calls never happen",
            "3:13: channel 'e' is accepted by job 'one', and no other job calls it: these accepts never happen",
            "4:9: channel 'f' is called by job 'a', and no other job accepts it: these calls never happen",
            "4:9: channel 'f' is accepted by job 'a', and no other job calls it: these accepts never happen",
        ],
    ),
    (
        "Copies meet each other.",
        "\
plan x
event met
channel c gives met
job a times 2 from s to t
  s calls c then t
  s accepts c then t
rule r
  every met
",
        &[],
    ),
    (
        "Copies that call alone are told once.",
        "\
plan x
channel c
jobs a b from s to t
  s calls c then t
  s then u
",
        &[
            "2:9: channel 'c' is called by job 'a', and no other job accepts it: these calls never happen",
            "5:10: nothing leads on from node 'u' of job 'a', and it is not its exit",
        ],
    ),
    (
        "Nodes to which nothing leads, or from which nothing leads on.",
        "\
plan x
job a from s to t
  s then u
  v then w then t
  w then v
job b from s to t
  nodes s t u v
  s then t
  s then v
job c from s to s
service m from i
  i then j
  k then j
",
        &[
            "2:17: nothing leads to the exit 't' of job 'a': no run can end",
            "3:10: nothing leads on from node 'u' of job 'a', and it is not its exit",
            "4:3: nothing leads from 's' to node 'v' of job 'a'",
            "4:10: nothing leads from 's' to node 'w' of job 'a'",
            "7:13: nothing leads from 's' to node 'u' of job 'b'",
            "7:15: nothing leads on from node 'v' of job 'b', and it is not its exit",
            "12:10: nothing leads on from node 'j' of service 'm', where it stops for good",
            "13:3: nothing leads from 'i' to node 'k' of job 'm'",
        ],
    ),
    (
        "Events that nobody gives, each told once a rule: that of a channel on which nobody meets too.",
        "\
plan x
event a b c d
channel one gives b
channel two gives c
job first from s to t
  s gives a then t
  s calls one then t
  s calls two then t
job second from s to t
  s accepts two then t
rule r
  watch d b
  every a ; b ; c ; d
rule q
  never [^d]
",
        &[
            "3:9: channel 'one' is called by job 'first', and no other job accepts it: these calls never happen",
            "12:9: rule 'r' watches 'd', and no job gives it",
            "12:11: rule 'r' watches 'b', and no job gives it",
            "15:3: rule 'q' watches 'd' alone, and '[^ ]' takes in watched events only; 'watch' adds more",
            "15:11: rule 'q' watches 'd', and no job gives it",
        ],
    ),
    (
        "A set of all but some events, in rules that watch one or two.",
        "\
plan x
event a b
job first from s to t
  s gives a then u gives b then t
rule one
  never b ; [^]*
rule two
  never b ; [^]*
  watch a
rule none
  every [^]*
rule plain
  every a
",
        &["6:3: rule 'one' watches 'b' alone, and '[^ ]' takes in watched events only; 'watch' adds more"],
    ),
    (
        "Nodes that are misspelt, and nodes that are counted.",
        "\
plan x
job first from start to end
  start then comparing then end
  start then comparng
  Start then end
job second from try-1 to end
  try-1 then try-2
  try-1 then end
",
        &[
            "4:14: nothing leads on from node 'comparng' of job 'first', and it is not its exit; did you mean 'comparing'?",
            "5:3: nothing leads from 'start' to node 'Start' of job 'first'; did you mean 'start'?",
            "7:14: nothing leads on from node 'try-2' of job 'second', and it is not its exit",
        ],
    ),
];

/// Whether all that is told of a file is of this severity, and what it is.
fn told(text: &str, severity: Severity) -> (bool, Vec<String>) {
    let file = read(text.as_bytes());
    let all = file.diagnostics.iter().all(|d| d.severity == severity);
    let lines = file.diagnostics.iter();
    let lines = lines.map(|d| format!("{}:{}: {}", d.place.line, d.place.column, d.message));
    (all, lines.collect())
}

#[test]
fn broken_files() {
    for (what, text, errors) in BROKEN {
        let (all, lines) = told(text, Severity::Error);
        assert!(all && lines == *errors, "{what}\n{text}\n{lines:#?}");
        assert!(read(text.as_bytes()).model.is_none(), "{what}");
    }
}

#[test]
fn warned_files() {
    for (what, text, warnings) in WARNED {
        let (all, lines) = told(text, Severity::Warning);
        assert!(all && lines == *warnings, "{what}\n{text}\n{lines:#?}");
        assert!(read(text.as_bytes()).model.is_some(), "{what}");
    }
}

/// What is told of a file: errors alone.
fn errors(text: &str) -> Vec<String> {
    let (all, lines) = told(text, Severity::Error);
    assert!(all);
    lines
}

/// `a1 a2 a3`, up to a number.
fn numbered(stem: &str, most: usize) -> String {
    let names: Vec<String> = (1..=most).map(|i| format!("{stem}{i}")).collect();
    names.join(" ")
}

#[test]
fn limits_of_names() {
    let events = |most| format!("plan x\nevent {}\n", numbered("e", most));
    let message = "2:122: 'e32' is event 32, and a plan has at most 31";
    assert_eq!(errors(&events(31)), [""; 0]);
    assert_eq!(errors(&events(40)), [message]);
    let channels = |most| format!("plan x\nchannel {}\n", numbered("c", most));
    let message = "2:256: 'c65' is channel 65, and a plan has at most 64";
    assert_eq!(errors(&channels(64)), [""; 0]);
    assert_eq!(errors(&channels(70)), [message]);
    let jobs = |most| format!("plan x\njobs {} from s to s\n", numbered("j", most));
    let message = "2:61: 'j17' is job 17, and a plan has at most 16";
    assert_eq!(errors(&jobs(16)), [""; 0]);
    assert_eq!(errors(&jobs(20)), [message]);
    let copies = "plan x\njob a times 10 from s to s\njob b times 9 from s to s\n";
    let message = "3:5: 'b-7' is job 17, and a plan has at most 16";
    assert_eq!(errors(copies), [message]);
}

/// A job with a head and as many lines of each kind.
fn job(head: &str, lines: &[(&str, usize)]) -> String {
    let mut text = format!("plan x\nchannel c\n{head}\n");
    for (line, times) in lines {
        text += &format!("{line}\n").repeat(*times);
    }
    text
}

#[test]
fn limits_of_jobs() {
    let nodes = |most| {
        job(
            "job a from n1 to n1",
            &[(&format!("nodes {}", numbered("n", most)), 1)],
        )
    };
    let message = "4:1179: 'n257' is node 257, and a plan has at most 256, copies counted";
    assert_eq!(errors(&nodes(300)), [message]);
    let copies = job(
        "job a times 3 from n1 to n1",
        &[(&format!("nodes {}", numbered("n", 86)), 1)],
    );
    let message = "3:5: job 'a-3' has node 257, and a plan has at most 256, copies counted";
    assert_eq!(errors(&copies), [message]);

    let one = |line| job("job a from s to t", &[(line, 300)]);
    let message = "260:3: this is step 257, and a plan has at most 256, copies counted";
    assert_eq!(errors(&one("s then t")), [message]);
    let message = "132:3: this is call 129, and a plan has at most 128, copies counted";
    assert_eq!(errors(&one("s calls c then t")), [message]);
    let message = "132:3: this is accept 129, and a plan has at most 128, copies counted";
    assert_eq!(errors(&one("s accepts c then t")), [message]);

    let all = [
        ("s calls c then t", 43),
        ("s accepts c then t", 65),
        ("s then t", 90),
    ];
    let three = job("jobs a b d from s to t", &all);
    assert_eq!(
        errors(&three),
        [
            "3:8: job 'b' has accept 129, and a plan has at most 128, copies counted",
            "3:10: job 'd' has step 257, and a plan has at most 256, copies counted",
            "3:10: job 'd' has call 129, and a plan has at most 128, copies counted",
        ]
    );
}

/// The first diagnostic of a file as it is shown.
fn shown(text: &str) -> String {
    let file = read(text.as_bytes());
    render("night.jobs", &file.source, &file.diagnostics[0])
}

#[test]
fn diagnostics_are_shown_with_their_line() {
    assert_eq!(
        shown("plan x\nchannel close\njob a from s to t\n\ts\tcalls\tcloze then t\n"),
        "night.jobs:4:10: error: no channel 'cloze'; did you mean 'close'?\n     s calls cloze then t\n             ^\n"
    );
    assert_eq!(
        shown("plan x\nchannel c\njob a from s to t\n  s calls c then t\n"),
        "night.jobs:2:9: warning: channel 'c' is called by job 'a', and no other job accepts it: these calls never happen\n    channel c\n            ^\n"
    );
    assert_eq!(
        shown(""),
        "night.jobs:1:1: error: the file does not begin with 'plan' and a name\n    \n    ^\n"
    );
    assert_eq!(
        shown("plan é\x1b[2J\u{202e}!\n"),
        "night.jobs:1:7: error: the control character U+001B has no place in a file\n    plan é·[2J·!\n          ^\n"
    );
}

#[test]
fn long_lines_are_cut() {
    let line = |before: usize, behind: usize| {
        let (before, behind) = ("e ".repeat(before), " f".repeat(behind));
        format!("plan x\nevent e f\nrule r\nwatch {before}X{behind}\nevery 0\n")
    };
    let blanks = |most: usize| " ".repeat(4 + most);
    assert_eq!(
        shown(&line(3, 70)),
        format!(
            "night.jobs:4:13: error: no event 'X'; 'event X' declares it\n    watch e e e X{}…\n{}^\n",
            " f".repeat(43),
            blanks(12)
        )
    );
    assert_eq!(
        shown(&line(70, 70)),
        format!(
            "night.jobs:4:147: error: no event 'X'; 'event X' declares it\n    …{}X{}…\n{}^\n",
            " e".repeat(24) + " ",
            " f".repeat(24),
            blanks(50)
        )
    );
    assert_eq!(
        shown(&line(70, 3)),
        format!(
            "night.jobs:4:147: error: no event 'X'; 'event X' declares it\n    …{}X f f f\n{}^\n",
            "e ".repeat(46),
            blanks(93)
        )
    );
}
