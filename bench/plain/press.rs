//! Press and arrangements, by the parser's level.

use crate::parser::{Parsed, Parser};
use crate::token::*;
use crate::words::{Level, Operand, Slot, Word};

/// What an arrangement is part of. An operand of AND or ORR may contain these only from a higher level on.
#[derive(Clone, Copy, PartialEq, Eq)]
pub enum Part {
    Whole,
    Operand,
}

impl Part {
    /// Returns the lowest level at which AND and ORR are allowed.
    fn joined_level(self) -> Level {
        match self {
            Part::Whole => Level::L30,
            Part::Operand => Level::L50,
        }
    }
}

impl Parser<'_> {
    /// `[( turn )] ( power+ ) ( press )`, after SND
    pub fn send(&mut self) -> Parsed {
        self.open()?;
        if self.take_if(is_season) {
            self.one(is_number)?;
            self.close()?;
            self.powers_group()?;
        } else {
            self.powers()?;
            self.close()?;
        }
        self.press_group()
    }

    /// `[( send )]`, which is allowed from level 10 on
    pub fn maybe_send_group(&mut self) -> Parsed {
        if self.level < Level::L10 || !self.has_group() {
            return Ok(());
        }
        self.group(|parser| {
            parser.word(SND)?;
            parser.send()
        })
    }

    /// `( press )`
    pub fn press_group(&mut self) -> Parsed {
        self.group(Self::press)
    }

    fn press(&mut self) -> Parsed {
        let is_highest = self.level == Level::L60;
        match self.take()? {
            PRP => self.arrangement_group(Part::Whole),
            FCT => self.fact_group(),
            TRY => self.words_group(),
            YES | REJ | BWX => self.press_group(),
            HUH => self.any_group(),
            INS | QRY | SUG if is_highest => self.arrangement_group(Part::Whole),
            THK if is_highest => self.fact_group(),
            IDK | SRY if is_highest => self.press_group(),
            token => self.operators_word(token, Slot::Press, Part::Whole),
        }
    }

    /// `( arrangement )`
    fn arrangement_group(&mut self, part: Part) -> Parsed {
        self.group(|parser| parser.arrangement(part))
    }

    fn arrangement(&mut self, part: Part) -> Parsed {
        let level = self.level;
        match self.take()? {
            PCE => self.powers_group(),
            ALY => self.alliance(),
            DRW => self.maybe_powers_group(),
            SLO => self.power_group(),
            NOT => self.arrangement_group(part),
            XDO if level >= Level::L20 => self.order_group(),
            DMZ if level >= Level::L20 => self.powers_group().and_then(|()| self.provinces_group()),
            AND | ORR if level >= part.joined_level() => self.operands(),
            SCD if level >= Level::L40 => self.shares(),
            OCC if level >= Level::L40 => self.occupations(),
            token => self.operators_word(token, Slot::Arrangement, part),
        }
    }

    /// `( power+ ) VSS ( power+ )`
    fn alliance(&mut self) -> Parsed {
        self.powers_group()?;
        self.word(VSS)?;
        self.powers_group()
    }

    /// `( operand ) ( operand )+`
    fn operands(&mut self) -> Parsed {
        self.arrangement_group(Part::Operand)?;
        self.arrangement_group(Part::Operand)?;
        self.groups(|parser| parser.arrangement(Part::Operand))
    }

    /// `( power province* )+`
    fn shares(&mut self) -> Parsed {
        self.group(Self::share)?;
        self.groups(Self::share)
    }

    /// `power province*`
    fn share(&mut self) -> Parsed {
        self.one(is_power)?;
        self.any_number(is_province)
    }

    /// `( unit )+`
    fn occupations(&mut self) -> Parsed {
        self.unit_group()?;
        self.groups(Self::unit)
    }

    /// `( fact )`
    fn fact_group(&mut self) -> Parsed {
        self.group(Self::fact)
    }

    /// An arrangement, and at level 60 also a query and the negation of a fact.
    fn fact(&mut self) -> Parsed {
        if self.level == Level::L60 && self.take_if(|token| token == NOT) {
            return self.fact_group();
        }
        if self.level == Level::L60 && self.take_if(|token| token == QRY) {
            return self.arrangement_group(Part::Whole);
        }
        self.arrangement(Part::Whole)
    }

    /// The operand of the operator's word that was taken last. Refuses any other token.
    #[cold]
    fn operators_word(&mut self, token: u16, slot: Slot, part: Part) -> Parsed {
        let is_allowed = |word: &&Word| word.code == token && word.slot == slot && word.level <= self.level;
        let Some(word) = self.words.iter().find(is_allowed) else {
            return self.refuse();
        };
        match word.operand {
            Operand::Power => self.power_group(),
            Operand::Powers => self.powers_group(),
            Operand::Provinces => self.provinces_group(),
            Operand::Order => self.order_group(),
            Operand::Arrangement => self.arrangement_group(part),
            Operand::Press => self.press_group(),
        }
    }
}
