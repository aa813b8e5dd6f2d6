//! A picture written in DOT.
use super::{colour, Move, Picture};
use traceflow::Job;

/// The picture as a graph: a cluster for each job, with its nodes and moves.
pub fn write(picture: &Picture) -> String {
    let mut out = format!("digraph {} {{\n", quoted(&picture.names.plan));
    out += &format!("  label={};\n", quoted(&picture.caption));
    out += "  labelloc=t;\n";
    out += "  node [shape=box, style=rounded];\n";
    for (number, job) in picture.plan.jobs.iter().enumerate() {
        out += &cluster(picture, number, job);
    }
    out + "}\n"
}

fn cluster(picture: &Picture, number: usize, job: &Job) -> String {
    let mark = if job.standing { " (service)" } else { "" };
    let label = format!("{}{mark}", picture.names.job(number));
    let mut out = format!("  subgraph cluster_{number} {{\n");
    out += &format!("    label={};\n", quoted(&label));
    for node in job.first..job.first + job.size {
        out += &node_line(picture, job, node);
    }
    out += &format!("    entry{number} [shape=point];\n");
    out += &format!("    entry{number} -> n{};\n", job.entry);
    for step in picture.moves(job) {
        out += &move_line(picture, &step);
    }
    out + "  }\n"
}

fn node_line(picture: &Picture, job: &Job, node: usize) -> String {
    let mut attributes = format!("label={}", quoted(&picture.names.node(node)));
    if !job.standing && node == job.exit {
        attributes += ", peripheries=2";
    }
    if picture.is_unreached(node) {
        attributes += ", style=\"rounded,dashed,filled\", fillcolor=gray90";
        attributes += ", color=gray40, fontcolor=gray40";
    }
    format!("    n{node} [{attributes}];\n")
}

fn move_line(picture: &Picture, step: &Move) -> String {
    let mut attributes = Vec::new();
    if let Some(label) = picture.label(step.act) {
        attributes.push(format!("label={}", quoted(&label)));
    }
    if let Some(colour) = move_colour(picture, step) {
        attributes.push(format!("color={colour}, fontcolor={colour}"));
    }
    let ends = format!("    n{} -> n{}", step.from, step.to);
    if attributes.is_empty() {
        return format!("{ends};\n");
    }
    format!("{ends} [{}];\n", attributes.join(", "))
}

/// Grey for a move from a node to which no run comes, else the colour of its channel.
fn move_colour(picture: &Picture, step: &Move) -> Option<String> {
    if picture.is_unreached(step.from) {
        return Some("gray40".to_string());
    }
    step.act.channel().map(|c| quoted(&colour(c)))
}

/// Words as DOT has them: it reads backslashes and ampersands in labels.
fn quoted(words: &str) -> String {
    let mut out = String::from('"');
    for letter in words.chars() {
        match letter {
            '"' => out += "\\\"",
            '\\' => out += "\\\\",
            '&' => out += "&amp;",
            '\n' => out += "\\n",
            '\0'..='\x1f' | '\x7f' => out.push('\u{fffd}'),
            _ => out.push(letter),
        }
    }
    out.push('"');
    out
}
