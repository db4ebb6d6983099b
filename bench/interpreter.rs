// A plain interpreter of RV32I and M in Rust, for comparison: `interpreter FLASH TURNS` runs the first
// application of a flash image alone, decoding each instruction as it is fetched. It checks where an
// access lies, and knows no system call: it stops at the first one. Built with `--cfg compiled` it runs
// what a compiler made: it decodes instructions of 16 bits as well, and refuses each system call. This
// is left out otherwise, since it makes the loop over words slower.
use std::env;
use std::fs;
use std::process::exit;

const FLASH: u32 = 0x2000_0000;
const RAM: u32 = 0x8000_0000;
const RAM_SIZE: usize = 4096;
const COMPILED: bool = cfg!(compiled);

struct Machine {
    flash: Vec<u8>,
    ram: Vec<u8>,
    x: [u32; 32],
    pc: u32,
}

enum Stop {
    Call,
    Trap,
}

fn sign(value: u32, bits: u32) -> u32 {
    ((value << (32 - bits)) as i32 >> (32 - bits)) as u32
}

// The bits of a value from `high` down to `low`, at `to`.
fn bits(value: u32, high: u32, low: u32, to: u32) -> u32 {
    (value >> low & ((1 << (high - low + 1)) - 1)) << to
}

impl Machine {
    fn read(&self, at: u32, width: u32) -> Result<u32, Stop> {
        let (bytes, start) = if at >= RAM {
            (&self.ram, (at - RAM) as usize)
        } else if at >= FLASH {
            (&self.flash, (at - FLASH) as usize)
        } else {
            return Err(Stop::Trap);
        };
        let end = start + width as usize;
        if end > bytes.len() {
            return Err(Stop::Trap);
        }
        let mut value = 0;
        for (k, byte) in bytes[start..end].iter().enumerate() {
            value |= u32::from(*byte) << (8 * k);
        }
        Ok(value)
    }

    fn load(&self, at: u32, width: u32) -> Result<u32, Stop> {
        if at % width != 0 {
            return Err(Stop::Trap);
        }
        self.read(at, width)
    }

    fn store(&mut self, at: u32, width: u32, value: u32) -> Result<(), Stop> {
        if at % width != 0 || at < RAM {
            return Err(Stop::Trap);
        }
        let start = (at - RAM) as usize;
        let end = start + width as usize;
        if end > self.ram.len() {
            return Err(Stop::Trap);
        }
        for (k, byte) in self.ram[start..end].iter_mut().enumerate() {
            *byte = (value >> (8 * k)) as u8;
        }
        Ok(())
    }

    fn fetch(&self) -> Result<u32, Stop> {
        if self.pc >= RAM {
            return Err(Stop::Trap);
        }
        let first = self.read(self.pc, 2)?;
        if first & 3 != 3 {
            return if COMPILED { Ok(first) } else { Err(Stop::Trap) };
        }
        Ok(first | self.read(self.pc.wrapping_add(2), 2)? << 16)
    }

    fn set(&mut self, rd: usize, value: u32) {
        if rd != 0 {
            self.x[rd] = value;
        }
    }

    fn turn(&mut self) -> Result<(), Stop> {
        let word = self.fetch()?;
        if COMPILED && word & 3 != 3 {
            return self.turn_of_parcel(word);
        }
        let rd = (word >> 7 & 31) as usize;
        let funct3 = word >> 12 & 7;
        let a = self.x[(word >> 15 & 31) as usize];
        let b = self.x[(word >> 20 & 31) as usize];
        let funct7 = word >> 25;
        let i = sign(word >> 20, 12);
        let mut next = self.pc.wrapping_add(4);
        match word & 0x7f {
            0x37 => self.set(rd, word & 0xffff_f000),
            0x17 => self.set(rd, self.pc.wrapping_add(word & 0xffff_f000)),
            0x6f => {
                let offset = sign(
                    (word >> 31) << 20
                        | (word >> 12 & 0xff) << 12
                        | (word >> 20 & 1) << 11
                        | (word >> 21 & 0x3ff) << 1,
                    21,
                );
                self.set(rd, next);
                next = self.pc.wrapping_add(offset);
            }
            0x67 if funct3 == 0 => {
                self.set(rd, next);
                next = a.wrapping_add(i) & !1;
            }
            0x63 => {
                let taken = match funct3 {
                    0 => a == b,
                    1 => a != b,
                    4 => (a as i32) < b as i32,
                    5 => a as i32 >= b as i32,
                    6 => a < b,
                    7 => a >= b,
                    _ => return Err(Stop::Trap),
                };
                if taken {
                    let offset = sign(
                        (word >> 31) << 12
                            | (word >> 7 & 1) << 11
                            | (word >> 25 & 0x3f) << 5
                            | (word >> 8 & 15) << 1,
                        13,
                    );
                    next = self.pc.wrapping_add(offset);
                }
            }
            0x03 => {
                let at = a.wrapping_add(i);
                let value = match funct3 {
                    0 => sign(self.load(at, 1)?, 8),
                    1 => sign(self.load(at, 2)?, 16),
                    2 => self.load(at, 4)?,
                    4 => self.load(at, 1)?,
                    5 => self.load(at, 2)?,
                    _ => return Err(Stop::Trap),
                };
                self.set(rd, value);
            }
            0x23 if funct3 < 3 => {
                let at = a.wrapping_add(sign(funct7 << 5 | rd as u32, 12));
                self.store(at, 1 << funct3, b)?;
            }
            0x13 => {
                let shift = (word >> 20 & 31) as u32;
                let value = match (funct3, funct7) {
                    (0, _) => a.wrapping_add(i),
                    (2, _) => u32::from((a as i32) < i as i32),
                    (3, _) => u32::from(a < i),
                    (4, _) => a ^ i,
                    (6, _) => a | i,
                    (7, _) => a & i,
                    (1, 0) => a << shift,
                    (5, 0) => a >> shift,
                    (5, 0x20) => (a as i32 >> shift) as u32,
                    _ => return Err(Stop::Trap),
                };
                self.set(rd, value);
            }
            0x33 => {
                let value = match (funct7, funct3) {
                    (0, 0) => a.wrapping_add(b),
                    (0x20, 0) => a.wrapping_sub(b),
                    (0, 1) => a << (b & 31),
                    (0, 2) => u32::from((a as i32) < b as i32),
                    (0, 3) => u32::from(a < b),
                    (0, 4) => a ^ b,
                    (0, 5) => a >> (b & 31),
                    (0x20, 5) => (a as i32 >> (b & 31)) as u32,
                    (0, 6) => a | b,
                    (0, 7) => a & b,
                    (1, 0) => a.wrapping_mul(b),
                    (1, 1) => (i64::from(a as i32) * i64::from(b as i32) >> 32) as u32,
                    (1, 2) => (i64::from(a as i32) * i64::from(b) >> 32) as u32,
                    (1, 3) => (u64::from(a) * u64::from(b) >> 32) as u32,
                    (1, 4) if b == 0 => u32::MAX,
                    (1, 4) => (a as i32).wrapping_div(b as i32) as u32,
                    (1, 5) => a.checked_div(b).unwrap_or(u32::MAX),
                    (1, 6) if b == 0 => a,
                    (1, 6) => (a as i32).wrapping_rem(b as i32) as u32,
                    (1, 7) => a.checked_rem(b).unwrap_or(a),
                    _ => return Err(Stop::Trap),
                };
                self.set(rd, value);
            }
            0x0f if funct3 == 0 => {}
            _ if word == 0x73 && COMPILED => (self.x[10], self.x[11]) = (0, 11), // NODEVICE
            _ if word == 0x73 => return Err(Stop::Call),
            _ => return Err(Stop::Trap),
        }
        self.pc = next;
        Ok(())
    }

    // An instruction of 16 bits.
    fn turn_of_parcel(&mut self, parcel: u32) -> Result<(), Stop> {
        let (rd, rs2) = (bits(parcel, 11, 7, 0) as usize, bits(parcel, 6, 2, 0) as usize);
        let (short, other) = (8 + (rd & 7), 8 + (rs2 & 7));
        let i = sign(bits(parcel, 12, 12, 5) | rs2 as u32, 6);
        let of_word = bits(parcel, 12, 10, 3) | bits(parcel, 6, 6, 2) | bits(parcel, 5, 5, 6);
        let a = self.x[short];
        let mut next = self.pc.wrapping_add(2);
        match (parcel & 3, parcel >> 13) {
            (0, 0) if parcel != 0 => {
                let by = bits(parcel, 12, 11, 4) | bits(parcel, 10, 7, 6);
                let by = by | bits(parcel, 6, 6, 2) | bits(parcel, 5, 5, 3);
                self.x[other] = self.x[2].wrapping_add(by);
            }
            (0, 2) => self.x[other] = self.load(a.wrapping_add(of_word), 4)?,
            (0, 6) => self.store(a.wrapping_add(of_word), 4, self.x[other])?,
            (1, 0) => self.set(rd, self.x[rd].wrapping_add(i)),
            (1, 1 | 5) => {
                let by = bits(parcel, 12, 12, 11) | bits(parcel, 8, 8, 10) | bits(parcel, 10, 9, 8);
                let by = by | bits(parcel, 6, 6, 7) | bits(parcel, 7, 7, 6) | bits(parcel, 2, 2, 5);
                let by = by | bits(parcel, 11, 11, 4) | bits(parcel, 5, 3, 1);
                if parcel >> 13 == 1 {
                    self.x[1] = next;
                }
                next = self.pc.wrapping_add(sign(by, 12));
            }
            (1, 2) => self.set(rd, i),
            (1, 3) if rd == 2 => {
                let by = bits(parcel, 12, 12, 9) | bits(parcel, 4, 3, 7) | bits(parcel, 5, 5, 6);
                let by = by | bits(parcel, 2, 2, 5) | bits(parcel, 6, 6, 4);
                self.x[2] = self.x[2].wrapping_add(sign(by, 10));
            }
            (1, 3) => self.set(rd, i << 12),
            (1, 4) => {
                self.x[short] = match (bits(parcel, 12, 10, 0), bits(parcel, 6, 5, 0)) {
                    (0, _) => a >> rs2,
                    (1, _) => (a as i32 >> rs2) as u32,
                    (2 | 6, _) => a & i,
                    (3, 0) => a.wrapping_sub(self.x[other]),
                    (3, 1) => a ^ self.x[other],
                    (3, 2) => a | self.x[other],
                    (3, 3) => a & self.x[other],
                    _ => return Err(Stop::Trap),
                }
            }
            (1, test @ (6 | 7)) => {
                if (a == 0) == (test == 6) {
                    let by = bits(parcel, 12, 12, 8) | bits(parcel, 6, 5, 6);
                    let by = by | bits(parcel, 2, 2, 5) | bits(parcel, 11, 10, 3);
                    let by = by | bits(parcel, 4, 3, 1);
                    next = self.pc.wrapping_add(sign(by, 9));
                }
            }
            (2, 0) => self.set(rd, self.x[rd] << rs2),
            (2, 2) => {
                let by = bits(parcel, 12, 12, 5) | bits(parcel, 6, 4, 2) | bits(parcel, 3, 2, 6);
                self.set(rd, self.load(self.x[2].wrapping_add(by), 4)?);
            }
            (2, 4) => match (parcel >> 12 & 1, rs2) {
                (0, 0) => next = self.x[rd] & !1,
                (0, _) => self.set(rd, self.x[rs2]),
                (_, 0) if rd == 0 => return Err(Stop::Trap),
                (_, 0) => (self.x[1], next) = (next, self.x[rd] & !1),
                _ => self.set(rd, self.x[rd].wrapping_add(self.x[rs2])),
            },
            (2, 6) => {
                let by = bits(parcel, 12, 9, 2) | bits(parcel, 8, 7, 6);
                self.store(self.x[2].wrapping_add(by), 4, self.x[rs2])?;
            }
            _ => return Err(Stop::Trap),
        }
        self.pc = next;
        Ok(())
    }
}

fn main() {
    let words: Vec<String> = env::args().collect();
    let [_, flash, turns] = words.as_slice() else {
        eprintln!("usage: interpreter FLASH TURNS");
        exit(2);
    };
    let flash = fs::read(flash).expect("flash file");
    let turns: u64 = turns.parse().expect("turns");
    let header = u32::from(u16::from_le_bytes([flash[2], flash[3]]));
    let size = u32::from_le_bytes([flash[4], flash[5], flash[6], flash[7]]);
    let mut machine = Machine {
        flash,
        ram: vec![0; RAM_SIZE],
        x: [0; 32],
        pc: FLASH + header,
    };
    // What a process is started with: its flash, its RAM, the length of it, and the break.
    machine.x[10] = FLASH;
    machine.x[11] = RAM;
    machine.x[12] = RAM_SIZE as u32;
    machine.x[13] = RAM + RAM_SIZE as u32;
    let mut done = 0;
    let mut end = "turns";
    while done < turns {
        match machine.turn() {
            Ok(()) => done += 1,
            Err(Stop::Call) => {
                end = "call";
                break;
            }
            Err(Stop::Trap) => {
                end = "trap";
                break;
            }
        }
    }
    println!("end {end} turns {done} of {size} bytes, x7 {:08x}", machine.x[7]);
}
