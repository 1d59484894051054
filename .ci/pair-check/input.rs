// All that a call may be handed, and what it may write to: good throughout, until a cause puts a fault in.
use crate::chess_scores::{read_line, State, Weights, ORDER};

/// White to move takes pawn e5 with knight f3; fourteen white pieces, seven pawns a side, no rights. It may come from real play.
const POSITION: &str = "2bqk2r/ppp2ppp/8/4p3/3P4/2N2N2/PPP2PPP/R1BQR1K1 w - - 0 1;1-0";

/// A line in parts, without its ranks.
#[derive(Clone, Debug, PartialEq)]
pub struct Text {
    pub head: Vec<u8>,
    pub before_ranks: &'static str,
    pub joint: &'static str,
    /// Runs of empty squares as ones.
    pub runs_in_parts: bool,
    pub after_ranks: &'static str,
    pub side: &'static str,
    pub rights: &'static str,
    pub passant: &'static str,
    pub counters: &'static str,
    pub separator: &'static str,
    pub result: &'static str,
    /// What a question has after the result: the capture and the order.
    pub question: Option<[&'static str; 2]>,
    pub tail: Vec<u8>,
    pub end: Vec<u8>,
}

#[derive(Clone, Debug, PartialEq)]
pub struct Input {
    pub text: Text,
    /// The squares of the line's ranks.
    pub placed: [u8; 64],
    pub bitboards: Vec<u64>,
    pub board: Vec<u8>,
    pub state: State,
    pub mode: u8,
    pub order: [u8; 6],
    pub color: u8,
    pub piece: u8,
    pub square: u8,
    pub from: u8,
    pub to: u8,
    pub half_points: u8,
    pub out: Vec<u8>,
    // records
    pub run: Vec<u8>,
    pub number: u64,
    pub place: Vec<u8>,
    pub summary: Vec<u64>,
    // traces and fits
    pub counts: [i32; 12],
    pub mobility: [i32; 12],
    pub sign: i32,
    pub piece_count: i32,
    pub entries: Vec<i32>,
    pub used: u8,
    pub list: [u8; 192],
    pub named: [f64; 11],
    pub squares: Vec<f64>,
    pub sums: Vec<f64>,
    pub first: Vec<f64>,
    pub second: Vec<f64>,
    pub weights: Vec<f64>,
    pub iteration: u64,
    pub lines: u64,
    // collections
    pub ledger: [u64; 4],
    pub errors: [u64; 7],
    pub totals: [u64; 3],
    /// The totals and the summary of another part, and its refused lines.
    pub more: [u64; 3],
    pub others: u64,
    pub more_summary: Vec<u64>,
    pub buffer: Vec<u8>,
    pub chunk: Vec<u8>,
    pub rows: Vec<u8>,
    pub samples: Vec<u8>,
    // numbers that calls write
    pub bytes: [u8; 3],
    pub word: i16,
    pub long: u64,
    pub flag: bool,
    pub sizes: [usize; 2],
    pub doubles: [f64; 2],
    pub told: ([u8; 32], [u8; 32], [u16; 32]),
}

const LETTERS: &[u8; 14] = b"..PpNnKkBbRrQq";

impl Input {
    pub fn good() -> Input {
        let (position, half_points) = read_line(POSITION.as_bytes()).expect("the good line");
        let (trace, list) = (position.trace().expect("its trace"), position.trace_list().expect("its list"));
        let record = position.record(half_points).expect("its record");
        let weights = Weights::shipped();
        let text = Text {
            head: vec![],
            before_ranks: "",
            joint: "/",
            runs_in_parts: false,
            after_ranks: "",
            side: "w",
            rights: "-",
            passant: "-",
            counters: "0 1",
            separator: ";",
            result: "1-0",
            question: None,
            tail: vec![],
            end: vec![],
        };
        let mut summary = vec![0; 770];
        summary[0] = 1;
        Input {
            text,
            placed: position.board,
            bitboards: position.bitboards.to_vec(),
            board: position.board.to_vec(),
            state: position.state,
            mode: 0,
            order: ORDER,
            color: 0,
            piece: 4,
            square: 36,
            from: 21,
            to: 36,
            half_points,
            out: vec![7; 99],
            run: [record, record].concat(),
            number: 0,
            place: vec![7; 34],
            summary,
            counts: trace.counts,
            mobility: trace.mobility,
            sign: trace.sign,
            piece_count: trace.piece_count,
            entries: trace.entries.to_vec(),
            used: list.used,
            list: list.entries.concat().try_into().expect("192 bytes"),
            named: weights.named,
            squares: weights.squares.to_vec(),
            sums: vec![0.0; 779],
            first: vec![0.0; 779],
            second: vec![0.0; 779],
            weights: vec![1.0; 779],
            iteration: 1,
            lines: 1,
            ledger: [0; 4],
            errors: [0; 7],
            totals: [0; 3],
            more: [1, 0, 1],
            others: 1,
            more_summary: vec![1; 770],
            buffer: vec![b'x'; 256],
            chunk: b"x\n".to_vec(),
            rows: vec![7; 116],
            samples: vec![7; 300],
            bytes: [7; 3],
            word: 7,
            long: 7,
            flag: false,
            sizes: [7; 2],
            doubles: [7.0; 2],
            told: ([7; 32], [7; 32], [7; 32]),
        }
    }

    /// The line, or the question, that its parts make.
    pub fn line(&self) -> Vec<u8> {
        let Text { head, before_ranks, joint, after_ranks, side, rights, passant, counters, separator, result, question, tail, end, .. } = &self.text;
        let ranks: Vec<String> = (0..8).rev().map(|rank| self.rank(&self.placed[8 * rank..8 * rank + 8])).collect();
        let field = [side, rights, passant, counters].iter().filter(|word| !word.is_empty()).map(|word| format!(" {word}")).collect::<String>();
        let fields = question.map_or(String::new(), |fields| fields.map(|field| format!("{separator}{field}")).concat());
        let text = format!("{before_ranks}{}{after_ranks}{field}{separator}{result}{fields}", ranks.join(joint));
        [head, text.as_bytes(), tail, end].concat()
    }

    fn rank(&self, codes: &[u8]) -> String {
        let (mut text, mut run) = (String::new(), 0);
        for code in codes.iter().copied().chain([255]) {
            if code == 0 {
                run += 1;
                continue;
            }
            match run {
                0 => (),
                _ if self.text.runs_in_parts => text += &"1".repeat(run),
                _ => text += &run.to_string(),
            }
            run = 0;
            if code != 255 {
                text.push(LETTERS[code as usize] as char);
            }
        }
        text
    }

    /// A piece on an empty square, in the position and in the line.
    pub fn put(&mut self, code: u8, square: usize) {
        assert_eq!(self.placed[square], 0, "{square} is taken");
        self.turn(code, square, code);
    }

    /// No piece there any more.
    pub fn take_off(&mut self, square: usize) {
        let code = self.placed[square];
        self.turn(code, square, 0);
    }

    fn turn(&mut self, code: u8, square: usize, after: u8) {
        self.placed[square] = after;
        self.board[square] = after;
        self.bitboards[code as usize] ^= 1 << square;
        self.bitboards[code as usize & 1] ^= 1 << square;
    }
}
