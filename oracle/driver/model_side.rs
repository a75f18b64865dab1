//! The answers of tools/model.py, through a pipe to oracle/model_server.py.

use std::io::{BufRead, BufReader, Write};
use std::process::{Child, ChildStdin, ChildStdout, Command, Stdio};

use crate::case::{Answer, Area, Call, Case, Ink, Outcome};

pub struct Model {
    _child: Child,
    to: ChildStdin,
    from: BufReader<ChildStdout>,
}

impl Model {
    pub fn start(script: &str) -> Self {
        let mut child = Command::new("python3")
            .arg(script)
            .stdin(Stdio::piped())
            .stdout(Stdio::piped())
            .spawn()
            .expect("python3 starts");
        let to = child.stdin.take().unwrap();
        let from = BufReader::new(child.stdout.take().unwrap());
        Model { _child: child, to, from }
    }

    pub fn call(&mut self, case: &Case, call: Call) -> Outcome {
        let (kind, anchor, align) = match call {
            Call::Open => (0, 0, 0),
            Call::FontBox(anchor) => (1, anchor, 0),
            Call::Measure => (2, case.anchor, 0),
            Call::Aligned(align) => (3, case.anchor, align),
            Call::Draw(_) => (4, case.anchor, 0),
            Call::Redraw(align, _) => (5, case.anchor, align),
            Call::DrawAligned(align, _) => (6, case.anchor, align),
        };
        let ground = (call.ink() == Some(Ink::WithBackground)) as u8;
        let hex = |v: &[u8]| v.iter().map(|b| format!("{b:02x}")).collect::<String>();
        let (old_text, buffer): (&[u8], &[u8]) = match kind {
            5 => (&case.old_text, &case.buffer),
            4 | 6 => (&[], &case.buffer),
            _ => (&[], &[]),
        };
        writeln!(
            self.to,
            "{kind} {anchor} {align} {ground} {} {} {} {} {} {} {} {} {} f{} t{} o{} b{}",
            case.x, case.y, case.line_height, case.skip as u8, case.fg, case.bg, case.clear_color, case.width, case.height,
            hex(&case.font), hex(&case.text), hex(old_text), hex(buffer)
        )
        .expect("the model reads");
        self.to.flush().expect("the model reads");
        let mut line = String::new();
        self.from.read_line(&mut line).expect("the model answers");
        let mut words = line.split_whitespace();
        let mut bytes = Vec::new();
        if kind >= 4 {
            let cells = words.next().expect("the framebuffer");
            bytes = (1..cells.len()).step_by(2).map(|i| u8::from_str_radix(&cells[i..i + 2], 16).unwrap()).collect();
        }
        let steps = (kind >= 2).then(|| {
            let mut number = || words.next().expect("a sum").parse().unwrap();
            (number(), number())
        });
        let yes = words.next().expect("an answer") == "ok";
        let rest: Vec<&str> = words.collect();
        let number = |i: usize| rest[i].parse::<i64>().unwrap();
        let area = |i: usize| {
            (rest[i] != "none").then(|| Area {
                left: number(i) as i32,
                top: number(i + 1) as i32,
                width: number(i + 2) as u32,
                height: number(i + 3) as u32,
            })
        };
        let answer = match call {
            _ if !yes => Answer::Refused { number: number(0) as u32, code_point: number(1) as u32 },
            Call::Open => {
                let mut values = [0; 21];
                for (i, v) in values.iter_mut().enumerate() {
                    *v = number(i);
                }
                Answer::Open(values)
            }
            Call::FontBox(_) => Answer::FontBox(area(0).expect("a box")),
            Call::Measure | Call::Draw(_) | Call::Redraw(..) => {
                Answer::Text { advance: (number(0) as i32, number(1) as i32), bounds: area(2) }
            }
            Call::Aligned(_) | Call::DrawAligned(..) => Answer::Bounds(area(0)),
        };
        Outcome { answer, buffer: bytes, steps }
    }
}
