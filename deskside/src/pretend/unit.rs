//! The pretend dispenser: the Rattle program `pretend_unit`, and what it is told about notes.

use crate::filter::Filter;
use crate::hex;
use std::collections::VecDeque;

/// What becomes of a command.
#[derive(Clone, Debug, Default, PartialEq, Eq)]
pub struct Plan {
    /// The notes paid from each cassette; where none is said, as many as were asked.
    pub exits: Option<[u32; 2]>,
    pub rejects: [u32; 2],
    pub error: Option<u8>,
    /// The milliseconds that it takes.
    pub takes: u64,
}

/// A command that was taken: its answer is to be told.
struct Taken {
    code: u8,
    asked: [u32; 2],
    plan: Plan,
    rest: u64,
}

pub struct Unit {
    program: Filter,
    pub plans: VecDeque<Plan>,
    taken: Option<Taken>,
    /// The notes that it was told were paid and rejected, of each cassette.
    pub paid: [u64; 2],
    pub rejected: [u64; 2],
}

impl Unit {
    pub fn new(program: Filter) -> Unit {
        Unit { program, plans: VecDeque::new(), taken: None, paid: [0; 2], rejected: [0; 2] }
    }

    /// A byte from the host; what the unit puts on the line.
    pub fn byte(&mut self, byte: u8) -> Result<Vec<u8>, String> {
        let mut put = self.event(&format!("x{byte:02X}h"))?;
        put.extend(self.tell()?);
        Ok(put)
    }

    /// Time passes.
    pub fn pass(&mut self, ms: u64) -> Result<Vec<u8>, String> {
        let mut put = Vec::new();
        let mut rest = ms;
        while rest > 0 {
            let tick = rest.min(1_000);
            put.extend(self.event(&format!("w{tick}"))?);
            if let Some(taken) = &mut self.taken {
                taken.rest = taken.rest.saturating_sub(tick);
            }
            put.extend(self.tell()?);
            rest -= tick;
        }
        Ok(put)
    }

    fn event(&mut self, event: &str) -> Result<Vec<u8>, String> {
        self.program.give(format!("{event}\n").as_bytes()).map_err(|why| format!("pretend_unit: {why}"))?;
        let mut put = Vec::new();
        loop {
            let line = self.program.line().map_err(|why| why.to_string())?.ok_or("pretend_unit has ended")?;
            match line.split_whitespace().collect::<Vec<_>>()[..] {
                ["done"] => return Ok(put),
                ["device", "puts", ..] => {
                    put.extend(hex::bytes(&line["device puts ".len()..]).ok_or("pretend_unit puts what is no byte")?)
                }
                ["device", "takes", code, upper, lower] => {
                    let code = hex::byte(code.trim_end_matches('h')).ok_or("pretend_unit takes what is no code")?;
                    let asked = [upper.parse().unwrap_or(0), lower.parse().unwrap_or(0)];
                    let plan = self.plans.pop_front().unwrap_or_default();
                    self.taken = Some(Taken { code, asked, rest: plan.takes, plan });
                }
                ["device", "ends"] => {}
                _ => return Err(format!("pretend_unit, told {event}: {line}")),
            }
        }
    }

    /// Tells the answer of a command whose time has come.
    fn tell(&mut self) -> Result<Vec<u8>, String> {
        if !self.taken.as_ref().is_some_and(|taken| taken.rest == 0) {
            return Ok(Vec::new());
        }
        let Some(taken) = self.taken.take() else { return Ok(Vec::new()) };
        for (cassette, notes) in taken.paid().into_iter().enumerate() {
            self.paid[cassette] += u64::from(notes);
        }
        for (cassette, notes) in taken.rejected().into_iter().enumerate() {
            self.rejected[cassette] += u64::from(notes);
        }
        self.event(&taken.answer())
    }

    pub fn end(mut self) -> Result<(), String> {
        self.program.end().map_err(|why| format!("pretend_unit: {why}"))
    }
}

impl Taken {
    fn exits(&self) -> [u32; 2] {
        self.plan.exits.unwrap_or(self.asked)
    }

    fn paid(&self) -> [u32; 2] {
        let [upper, lower] = self.exits();
        match self.code {
            0x45 => [upper, 0],
            0x55 => [0, lower],
            0x56 => [upper, lower],
            _ => [0, 0],
        }
    }

    fn rejected(&self) -> [u32; 2] {
        let [upper, lower] = self.plan.rejects;
        match self.code {
            0x45 | 0x76 => [upper, 0],
            0x55 | 0x77 => [0, lower],
            0x56 => [upper, lower],
            _ => [0, 0],
        }
    }

    /// The line that tells it: CHK counts what went by, which is what was paid and what was rejected.
    fn answer(&self) -> String {
        let (exits, rejects) = (self.exits(), self.plan.rejects);
        let error = self.plan.error.unwrap_or(0x30);
        let one = |c: usize| format!("{},{},{error:02X}h,30h,{}", exits[c] + rejects[c], exits[c], rejects[c]);
        let test = |c: usize| format!("{},{error:02X}h,30h,{}", rejects[c], rejects[c]);
        let fields = match self.code {
            0x45 => one(0),
            0x55 => one(1),
            0x56 => format!(
                "{},{},{},{},{error:02X}h,30h,30h,{},{}",
                exits[0] + rejects[0],
                exits[0],
                exits[1] + rejects[1],
                exits[1],
                rejects[0],
                rejects[1]
            ),
            0x76 => test(0),
            0x77 => test(1),
            0x46 => format!("{error:02X}h,80h,00h"),
            _ => format!("{error:02X}h"),
        };
        format!("t{:02X}h,{fields}", self.code)
    }
}

#[cfg(test)]
mod tests {
    use super::*;

    fn taken(code: u8, asked: [u32; 2], plan: Plan) -> Taken {
        Taken { code, asked, plan, rest: 0 }
    }

    #[test]
    fn what_is_told() {
        let plain = Plan::default();
        let short = Plan { exits: Some([9, 2]), rejects: [2, 1], error: Some(0x38), takes: 0 };
        for (code, plan, line) in [
            (0x45, &plain, "t45h,10,10,30h,30h,0"),
            (0x45, &short, "t45h,11,9,38h,30h,2"),
            (0x55, &short, "t55h,3,2,38h,30h,1"),
            (0x56, &short, "t56h,11,9,3,2,38h,30h,30h,2,1"),
            (0x76, &short, "t76h,2,38h,30h,2"),
            (0x46, &plain, "t46h,30h,80h,00h"),
            (0x44, &plain, "t44h,30h"),
        ] {
            assert_eq!(taken(code, [10, 3], plan.clone()).answer(), line);
        }
        assert_eq!(taken(0x55, [0, 3], short.clone()).paid(), [0, 2]);
        assert_eq!(taken(0x76, [0, 0], short).rejected(), [2, 0]);
    }
}
