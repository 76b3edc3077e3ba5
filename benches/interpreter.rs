//! A plain interpreter of the benchmark's loop in safe Rust, to compare the machine with: one match
//! on the opcode and one on the function, addresses checked for alignment, for RAM and for user
//! mode, one delay slot, a test for an interrupt, a tick that may raise the timer, the links that a
//! store ends, the power switch, and a log entry written each step. What a trap, a wait or a link
//! would need ends the run, since the loop meets none. The arguments are a number of runs, unless
//! it is 1,000,000 the number of steps of each, and `sieve` for `sieve.s` in place of the loop.
use std::hint::black_box;
use std::time::Instant;

pub const RAM: u32 = 65_536;

pub const PROGRAM: [u32; 14] = [
    0x3c108000, 0x36101000, 0x8e080000, 0x01114821, 0x000950c0, 0x00095942, 0x014b4826, 0xae090000,
    0x920c0002, 0x26520001, 0x0189682a, 0xa20d0004, 0x1640fff5, 0x02328821,
];

/// The words of `sieve.s`.
#[allow(dead_code)]
pub const SIEVE: [u32; 27] = [
    0x3c108000, 0x36102000, 0x34120001, 0x34132000, 0x02004021, 0x02134821, 0xa1000000, 0x25080001,
    0x1509fffd, 0x00000000, 0x340a0002, 0x020a5821, 0x916c0000, 0x15800008, 0x014a6821, 0x26310001,
    0x01b3702b, 0x11c00004, 0x020d7821, 0xa1f20000, 0x08000090, 0x01aa6821, 0x254a0001, 0x1553fff3,
    0x00000000, 0x08000084, 0x00000000,
];

/// A machine of one processor.
#[derive(Default)]
pub struct Machine {
    r: [u32; 32],
    hi: u32,
    lo: u32,
    pub pc: u32,
    pub next: u32,
    slot: bool,
    waiting: bool,
    status: u32,
    /// IP and, where interrupts are on, IM, in Cause's places.
    ip: u32,
    mask: u32,
    /// The steps so far, and the one that raises the timer.
    count: u64,
    fire: u64,
    /// The bus's lines, in Cause's places.
    lines: u32,
    off: bool,
    linked: bool,
    pub ram: Vec<u8>,
    pub log: Vec<u32>,
    pub room: usize,
}

impl Machine {
    /// The place in RAM of an access of `width` bytes.
    fn place(&self, address: u32, width: u32) -> Option<usize> {
        if !(0x8000_0000..0xc000_0000).contains(&address)
            || address % width != 0
            || self.status & 2 != 0
        {
            return None;
        }
        let at = address & 0x1fff_ffff;
        (at <= RAM - width).then_some(at as usize)
    }

    fn word(&self, at: usize) -> Option<u32> {
        let bytes = self.ram.get(at..at + 4)?;
        Some(u32::from_be_bytes(bytes.try_into().ok()?))
    }

    fn set(&mut self, at: usize, bytes: &[u8]) -> Option<()> {
        self.ram.get_mut(at..at + bytes.len())?.copy_from_slice(bytes);
        (!self.linked).then_some(())
    }

    /// One step; `None` where it would trap.
    pub fn step(&mut self) -> Option<()> {
        if self.off || self.log.len() >= self.room || self.waiting {
            return None;
        }
        if (self.ip | self.lines) & self.mask != 0 {
            return None;
        }
        let w = self.word(self.place(self.pc, 4)?)?;
        let (s, t) = (self.r[(w >> 21 & 31) as usize], self.r[(w >> 16 & 31) as usize]);
        let (i, si, sa) = (w & 0xffff, w as u16 as i16 as u32, w >> 6 & 31);
        let (rt, rd) = ((w >> 16 & 31) as usize, (w >> 11 & 31) as usize);
        let address = s.wrapping_add(si);
        let mut target = self.next.wrapping_add(4);
        let mut slot = false;
        let mut write = None;
        let mut branch = None;
        match w >> 26 {
            0 => {
                let value = match w & 63 {
                    0 => t << sa,
                    2 => t >> sa,
                    3 => (t as i32 >> sa) as u32,
                    4 => t << (s & 31),
                    6 => t >> (s & 31),
                    7 => (t as i32 >> (s & 31)) as u32,
                    9 => self.pc.wrapping_add(8),
                    16 => self.hi,
                    18 => self.lo,
                    33 => s.wrapping_add(t),
                    35 => s.wrapping_sub(t),
                    36 => s & t,
                    37 => s | t,
                    38 => s ^ t,
                    39 => !(s | t),
                    42 => u32::from((s as i32) < t as i32),
                    43 => u32::from(s < t),
                    8 | 15 | 17 | 19 | 24 | 25 | 27 => 0,
                    _ => return None,
                };
                match w & 63 {
                    8 => (target, slot) = (s, true),
                    9 => (target, slot, write) = (s, true, Some((rd, value))),
                    15 => {}
                    17 => self.hi = s,
                    19 => self.lo = s,
                    24 => {
                        let p = i64::from(s as i32) * i64::from(t as i32);
                        (self.hi, self.lo) = ((p >> 32) as u32, p as u32);
                    }
                    25 => {
                        let p = u64::from(s) * u64::from(t);
                        (self.hi, self.lo) = ((p >> 32) as u32, p as u32);
                    }
                    27 => {
                        self.lo = s.checked_div(t).unwrap_or(0xffff_ffff);
                        self.hi = s.checked_rem(t).unwrap_or(s);
                    }
                    _ => write = Some((rd, value)),
                }
            }
            2 => (target, slot) = (self.next & 0xf000_0000 | (w & 0x3ff_ffff) << 2, true),
            3 => {
                write = Some((31, self.pc.wrapping_add(8)));
                (target, slot) = (self.next & 0xf000_0000 | (w & 0x3ff_ffff) << 2, true);
            }
            4 => branch = Some(s == t),
            5 => branch = Some(s != t),
            6 => branch = Some(s as i32 <= 0),
            7 => branch = Some(s as i32 > 0),
            9 => write = Some((rt, address)),
            10 => write = Some((rt, u32::from((s as i32) < si as i32))),
            11 => write = Some((rt, u32::from(s < si))),
            12 => write = Some((rt, s & i)),
            13 => write = Some((rt, s | i)),
            14 => write = Some((rt, s ^ i)),
            15 => write = Some((rt, i << 16)),
            32 => write = Some((rt, *self.ram.get(self.place(address, 1)?)? as i8 as u32)),
            33 | 37 => {
                let at = self.place(address, 2)?;
                let half = u16::from_be_bytes(self.ram.get(at..at + 2)?.try_into().ok()?);
                let value = if w >> 26 == 33 { half as i16 as u32 } else { u32::from(half) };
                write = Some((rt, value));
            }
            35 => write = Some((rt, self.word(self.place(address, 4)?)?)),
            36 => write = Some((rt, u32::from(*self.ram.get(self.place(address, 1)?)?))),
            40 => self.set(self.place(address, 1)?, &[t as u8])?,
            41 => self.set(self.place(address, 2)?, &(t as u16).to_be_bytes())?,
            43 => self.set(self.place(address, 4)?, &t.to_be_bytes())?,
            _ => return None,
        }
        if let Some(taken) = branch {
            slot = true;
            if taken {
                target = self.pc.wrapping_add(4).wrapping_add(si << 2);
            }
        }
        if slot && self.slot {
            return None;
        }
        if let Some((d @ 1.., value)) = write {
            self.r[d] = value;
        }
        (self.pc, self.next, self.slot) = (self.next, target, slot);
        self.count += 1;
        if self.count == self.fire {
            return None;
        }
        self.log.push(0);
        Some(())
    }
}

/// The last word of a run of this program, and how many steps it made.
fn run(program: &[u32], steps: u32) -> (u32, u64) {
    // it is made and read elsewhere, for all that the compiler knows
    let mut machine = black_box(Machine {
        r: [0; 32],
        hi: 0,
        lo: 0,
        pc: 0x8000_0200,
        next: 0x8000_0204,
        slot: false,
        waiting: false,
        status: 0,
        ip: 0,
        mask: 0,
        count: 0,
        fire: 0,
        lines: 0,
        off: false,
        linked: false,
        ram: vec![0; RAM as usize],
        log: Vec::with_capacity(steps as usize),
        room: steps as usize,
    });
    for (i, word) in program.iter().enumerate() {
        let at = 0x200 + 4 * i;
        machine.ram[at..at + 4].copy_from_slice(&word.to_be_bytes());
    }
    for _ in 0..steps {
        if machine.step().is_none() {
            break;
        }
    }
    black_box(&machine);
    (machine.r[17], machine.count)
}

fn main() {
    let mut words = std::env::args().skip(1);
    let mut number = |usual| words.next().map_or(usual, |word| word.parse::<u32>().unwrap_or(0));
    let (times, steps) = (number(0), number(1_000_000));
    let program: &[u32] = match words.next().as_deref() {
        Some("sieve") => &SIEVE,
        _ => &PROGRAM,
    };
    let start = Instant::now();
    let (mut word, mut count) = (0u32, 0u64);
    for _ in 0..times {
        let (last, made) = run(program, steps);
        word = word.wrapping_add(last);
        count += made;
    }
    println!("{count} {word:08x}");
    eprintln!("{}", start.elapsed().as_nanos());
}
