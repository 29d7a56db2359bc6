//! The messages of each side, and the verdict on a message.

use crate::frame::Side;
use crate::parser::{Parsed, Parser};
use crate::token::*;
use crate::words::{Level, Limits};

/// The verdict on a message. `Huh` has the index of the first token that no message continues.
#[derive(Clone, Copy)]
pub enum Verdict {
    Relay,
    Prn,
    Huh(u16),
}

/// A token of the message has an unknown category, so its frame is at fault.
pub struct InvalidToken;

/// Judges a message of a side at a level. Each token of a message that is relayed was recognised, so only a refused
/// message is searched for a token of an unknown category.
pub fn judge(side: Side, level: Level, tokens: &[[u8; 2]], limits: &Limits) -> Result<Verdict, InvalidToken> {
    if tokens.first().copied().map(token_of) == Some(PRN) {
        return judge_prn(tokens);
    }
    let mut parser = Parser::new(tokens, limits.max_depth, level, &limits.words);
    let parsed = match side {
        Side::Bot => parser.client(),
        Side::Server => parser.server(),
    };
    if parsed.and_then(|()| parser.end()).is_ok() {
        return Ok(Verdict::Relay);
    }
    if has_invalid(tokens) {
        return Err(InvalidToken);
    }
    let (place, open) = (parser.place(), limits.max_depth - parser.room());
    if is_balanced(&tokens[place..], u32::from(open)) { Ok(Verdict::Huh(place as u16)) } else { Ok(Verdict::Prn) }
}

/// Judges a message that begins with PRN. It may contain any tokens between its first and its last bracket.
fn judge_prn(tokens: &[[u8; 2]]) -> Result<Verdict, InvalidToken> {
    if has_invalid(tokens) {
        return Err(InvalidToken);
    }
    match tokens {
        [_, second, .., last] if token_of(*second) == BRA && token_of(*last) == KET => Ok(Verdict::Relay),
        _ => Ok(Verdict::Prn),
    }
}

/// Returns whether a token has an unknown category. The check of a block has no branch, so that the compiler checks its
/// tokens in parallel.
pub fn has_invalid(tokens: &[[u8; 2]]) -> bool {
    let is_invalid = |bytes: &[u8; 2]| !is_known(token_of(*bytes));
    let (blocks, rest) = tokens.as_chunks::<16>();
    let in_block = |block: &[[u8; 2]; 16]| block.iter().fold(false, |found, bytes| found | is_invalid(bytes));
    blocks.iter().any(in_block) || rest.iter().any(is_invalid)
}

/// Returns whether the brackets of the rest of a message balance, if this number of them is open before it.
fn is_balanced(rest: &[[u8; 2]], open: u32) -> bool {
    let mut open = open;
    for bytes in rest {
        match token_of(*bytes) {
            BRA => open += 1,
            KET if open == 0 => return false,
            KET => open -= 1,
            _ => {}
        }
    }
    open == 0
}

/// Returns the level that a relayed message of the server sets, if it is an HLO: by the number of its first option
/// `( LVL n )`, and 0 without such an option or for a negative number.
pub fn level_set(tokens: &[[u8; 2]], top: Level) -> Option<Level> {
    if tokens.first().copied().map(token_of) != Some(HLO) {
        return None;
    }
    let option = |four: &[[u8; 2]]| match *four {
        [open, word, number, close] if [open, word, close].map(token_of) == [BRA, LVL, KET] => {
            Some(token_of(number)).filter(|number| is_number(*number))
        }
        _ => None,
    };
    let number = tokens.windows(4).find_map(option).filter(|number| *number < 0x2000);
    Some(Level::highest(number.unwrap_or(0), top))
}

impl Parser<'_> {
    /// A client's message: a request, a reply, or the report HUH.
    fn client(&mut self) -> Parsed {
        if self.take_if(|token| token == YES || token == REJ) {
            return self.group(Self::reply);
        }
        if self.take_if(|token| token == HUH) {
            return self.any_group();
        }
        self.request()
    }

    /// A server's message that a client accepts or refuses.
    fn reply(&mut self) -> Parsed {
        self.one(|token| matches!(token, MAP | SVE | LOD))?;
        self.text_group()
    }

    fn request(&mut self) -> Parsed {
        match self.take()? {
            SUB => self.submission(),
            SND if self.level >= Level::L10 => self.send(),
            OBS | HLO | MAP | MDF | SCO | NOW | ORD | MIS | GOF => Ok(()),
            NME | ADM => self.text_groups(),
            IAM => self.power_group().and_then(|()| self.number_group()),
            HST => self.turn_group(),
            TME => self.maybe_number_group(),
            DRW => self.maybe_powers_group(),
            NOT => self.group(Self::cancelled),
            _ => self.refuse(),
        }
    }

    /// A request that a client may take back.
    fn cancelled(&mut self) -> Parsed {
        match self.take()? {
            SUB => self.submission(),
            GOF => Ok(()),
            TME => self.maybe_number_group(),
            DRW => self.maybe_powers_group(),
            _ => self.refuse(),
        }
    }

    /// `[( turn )] ( order )*`
    fn submission(&mut self) -> Parsed {
        if self.has_group() {
            self.open()?;
            if self.take_if(is_season) {
                self.one(is_number)?;
            } else {
                self.order()?;
            }
            self.close()?;
        }
        self.groups(Self::order)
    }

    /// `( text ) ( text )`
    fn text_groups(&mut self) -> Parsed {
        self.text_group()?;
        self.text_group()
    }

    /// `[( number )]`
    fn maybe_number_group(&mut self) -> Parsed {
        if self.has_group() { self.number_group() } else { Ok(()) }
    }

    fn server(&mut self) -> Parsed {
        match self.take()? {
            NOW => self.turn_group().and_then(|()| self.groups(Self::stand)),
            ORD => self.ordered(),
            THX => self.order_group().and_then(|()| self.group(|parser| parser.one(is_note))),
            FRM if self.level >= Level::L10 => self.forwarded(),
            SCO => self.groups(Self::owned),
            MDF => self.map_definition(),
            MIS => self.missing(),
            HLO => self.hello(),
            YES | REJ => self.group(Self::request),
            MAP | SVE | LOD => self.text_group(),
            CCD | OUT => self.power_group().and_then(|()| self.maybe_send_group()),
            NOT => self.group(|parser| parser.word(CCD).and_then(|()| parser.power_group())),
            SLO => self.power_group(),
            DRW => self.maybe_powers_group(),
            TME => self.number_group(),
            ADM => self.text_groups(),
            SMR => self.turn_group().and_then(|()| self.groups(Self::player)),
            HUH => self.any_group(),
            OFF => Ok(()),
            _ => self.refuse(),
        }
    }

    /// `( turn ) ( order ) ( outcome+ )`
    fn ordered(&mut self) -> Parsed {
        self.turn_group()?;
        self.order_group()?;
        self.group(|parser| {
            parser.one(is_result)?;
            parser.any_number(is_result)
        })
    }

    /// `( power ) ( power+ ) ( press )`
    fn forwarded(&mut self) -> Parsed {
        self.power_group()?;
        self.powers_group()?;
        self.press_group()
    }

    /// `unit` or `unit MRT ( place* )`
    fn stand(&mut self) -> Parsed {
        self.unit()?;
        if self.take_if(|token| token == MRT) { self.group(Self::places) } else { Ok(()) }
    }

    /// `( stand )*` or `( number )`
    fn missing(&mut self) -> Parsed {
        if !self.has_group() {
            return Ok(());
        }
        self.open()?;
        if self.take_if(is_number) {
            return self.close();
        }
        self.stand()?;
        self.close()?;
        self.groups(Self::stand)
    }

    /// `owner province*`
    fn owned(&mut self) -> Parsed {
        if !self.take_if(|token| is_power(token) || token == UNO) {
            self.powers_group()?;
        }
        self.any_number(is_province)
    }

    /// `( power+ ) ( ( ( owner province* )* ) ( province* ) ) ( ( province ( kind place* )* )* )`
    fn map_definition(&mut self) -> Parsed {
        self.powers_group()?;
        self.group(|parser| {
            parser.group(|parser| parser.groups(Self::owned))?;
            parser.group(|parser| parser.any_number(is_province))
        })?;
        self.group(|parser| parser.groups(Self::borders))
    }

    /// `province ( kind place* )*`
    fn borders(&mut self) -> Parsed {
        self.one(is_province)?;
        self.groups(Self::neighbours)
    }

    /// `kind place*`
    fn neighbours(&mut self) -> Parsed {
        if !self.take_if(is_unit_type) {
            self.group(|parser| {
                parser.word(FLT)?;
                parser.one(is_coast)
            })?;
        }
        self.places()
    }

    /// `( who ) ( number ) ( ( param [number] )* )`
    fn hello(&mut self) -> Parsed {
        self.group(|parser| parser.one(|token| is_power(token) || token == UNO))?;
        self.number_group()?;
        self.group(|parser| parser.groups(Self::option))
    }

    /// `param [number]`
    fn option(&mut self) -> Parsed {
        self.one(is_param)?;
        self.take_if(is_number);
        Ok(())
    }

    /// `power ( text ) ( text ) number [number]`
    fn player(&mut self) -> Parsed {
        self.one(is_power)?;
        self.text_groups()?;
        self.one(is_number)?;
        self.take_if(is_number);
        Ok(())
    }
}
