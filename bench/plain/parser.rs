//! A recursive descent over the tokens of a message, for the forms that both sides use. `message` has the messages of
//! each side, and `press` the press.
//!
//! Each method takes the tokens of one form of docs/PROTOCOL.md. If a token doesn't continue the form, the method
//! fails with `Wrong`, and the parser remains before that token.

use crate::token::*;
use crate::words::{Level, Word};

/// The next token does not continue the message, or the message ends too early.
pub struct Wrong;

pub type Parsed = Result<(), Wrong>;

/// The tokens of a message, and how many of them are parsed.
pub struct Parser<'a> {
    tokens: &'a [[u8; 2]],
    place: usize,
    /// The number of brackets that may still be opened.
    room: u16,
    pub level: Level,
    pub words: &'a [Word],
}

impl<'a> Parser<'a> {
    pub fn new(tokens: &'a [[u8; 2]], max_depth: u16, level: Level, words: &'a [Word]) -> Parser<'a> {
        Parser { tokens, place: 0, room: max_depth, level, words }
    }

    /// Returns the index of the next token.
    pub fn place(&self) -> usize {
        self.place
    }

    /// Returns the number of brackets that may still be opened.
    pub fn room(&self) -> u16 {
        self.room
    }

    /// Returns the next token, if there is one.
    #[inline]
    pub fn peek(&self) -> Option<u16> {
        self.tokens.get(self.place).copied().map(token_of)
    }

    /// Takes the next token.
    #[inline]
    pub fn take(&mut self) -> Result<u16, Wrong> {
        let token = self.peek().ok_or(Wrong)?;
        self.place += 1;
        Ok(token)
    }

    /// Refuses the token that was taken last.
    pub fn refuse(&mut self) -> Parsed {
        self.place -= 1;
        Err(Wrong)
    }

    /// Takes the next token if it is of this kind, and returns whether it is.
    #[inline]
    pub fn take_if(&mut self, is_wanted: impl FnOnce(u16) -> bool) -> bool {
        match self.peek() {
            Some(token) if is_wanted(token) => {
                self.place += 1;
                true
            }
            _ => false,
        }
    }

    /// Takes a token of this kind.
    #[inline]
    pub fn one(&mut self, is_wanted: impl FnOnce(u16) -> bool) -> Parsed {
        if self.take_if(is_wanted) { Ok(()) } else { Err(Wrong) }
    }

    /// Takes this token.
    #[inline]
    pub fn word(&mut self, wanted: u16) -> Parsed {
        self.one(|token| token == wanted)
    }

    /// Takes the tokens of this kind, none or more.
    #[inline]
    pub fn any_number(&mut self, is_wanted: impl Fn(u16) -> bool) -> Parsed {
        while self.take_if(&is_wanted) {}
        Ok(())
    }

    /// Succeeds at the end of the message.
    pub fn end(&mut self) -> Parsed {
        if self.place == self.tokens.len() { Ok(()) } else { Err(Wrong) }
    }

    /// Returns whether the next token is an opening bracket.
    #[inline]
    pub fn has_group(&self) -> bool {
        self.peek() == Some(BRA)
    }

    /// Takes an opening bracket. Fails also if as many are open as are allowed.
    #[inline]
    pub fn open(&mut self) -> Parsed {
        if self.room == 0 {
            return Err(Wrong);
        }
        self.word(BRA)?;
        self.room -= 1;
        Ok(())
    }

    /// Takes a closing bracket.
    #[inline]
    pub fn close(&mut self) -> Parsed {
        self.word(KET)?;
        self.room += 1;
        Ok(())
    }

    /// Takes a form in brackets.
    #[inline]
    pub fn group(&mut self, inside: impl FnOnce(&mut Self) -> Parsed) -> Parsed {
        self.open()?;
        inside(self)?;
        self.close()
    }

    /// Takes a form in brackets, none or more times.
    #[inline]
    pub fn groups(&mut self, inside: impl Fn(&mut Self) -> Parsed) -> Parsed {
        while self.has_group() {
            self.group(&inside)?;
        }
        Ok(())
    }

    /// `power+`
    #[inline]
    pub fn powers(&mut self) -> Parsed {
        self.one(is_power)?;
        self.any_number(is_power)
    }

    /// `province+`
    #[inline]
    pub fn provinces(&mut self) -> Parsed {
        self.one(is_province)?;
        self.any_number(is_province)
    }

    /// `( power )`
    pub fn power_group(&mut self) -> Parsed {
        self.group(|parser| parser.one(is_power))
    }

    /// `( power+ )`
    pub fn powers_group(&mut self) -> Parsed {
        self.group(Self::powers)
    }

    /// `[( power+ )]`
    pub fn maybe_powers_group(&mut self) -> Parsed {
        if self.has_group() { self.powers_group() } else { Ok(()) }
    }

    /// `( province+ )`
    pub fn provinces_group(&mut self) -> Parsed {
        self.group(Self::provinces)
    }

    /// `( text )`
    pub fn text_group(&mut self) -> Parsed {
        self.group(|parser| parser.any_number(is_text))
    }

    /// `( number )`
    pub fn number_group(&mut self) -> Parsed {
        self.group(|parser| parser.one(is_number))
    }

    /// `( season number )`
    pub fn turn_group(&mut self) -> Parsed {
        self.group(|parser| {
            parser.one(is_season)?;
            parser.one(is_number)
        })
    }

    /// `( any )`: tokens whose brackets balance. Refuses a token of an unknown category, since its frame is at fault.
    pub fn any_group(&mut self) -> Parsed {
        self.open()?;
        let outside = self.room;
        loop {
            match self.peek().ok_or(Wrong)? {
                BRA => self.open()?,
                KET if self.room == outside => return self.close(),
                KET => self.close()?,
                _ => self.one(is_known)?,
            }
        }
    }

    /// `( word* )`: tokens other than brackets.
    pub fn words_group(&mut self) -> Parsed {
        self.group(|parser| parser.any_number(|token| token != BRA && token != KET && is_known(token)))
    }

    /// `place`: a province, or a province and a coast in brackets.
    #[inline]
    pub fn one_place(&mut self) -> Parsed {
        if self.take_if(is_province) {
            return Ok(());
        }
        self.group(|parser| {
            parser.one(is_province)?;
            parser.one(is_coast)
        })
    }

    /// `place*`
    pub fn places(&mut self) -> Parsed {
        loop {
            self.any_number(is_province)?;
            if !self.has_group() {
                return Ok(());
            }
            self.one_place()?;
        }
    }

    /// `unit`: a power, a type and a place.
    #[inline]
    pub fn unit(&mut self) -> Parsed {
        self.one(is_power)?;
        self.one(is_unit_type)?;
        self.one_place()
    }

    /// `( unit )`
    #[inline]
    pub fn unit_group(&mut self) -> Parsed {
        self.group(Self::unit)
    }

    /// `order`: a unit in brackets and what it does, or a power that waives a build.
    pub fn order(&mut self) -> Parsed {
        if self.take_if(is_power) {
            return self.word(WVE);
        }
        self.unit_group()?;
        match self.take()? {
            HLD | DSB | BLD | REM => Ok(()),
            MTO | RTO => self.one_place(),
            SUP => self.support(),
            CVY => self.convoy(),
            CTO => self.convoyed_move(),
            _ => self.refuse(),
        }
    }

    /// `( unit ) [MTO province]`
    fn support(&mut self) -> Parsed {
        self.unit_group()?;
        if self.take_if(|token| token == MTO) { self.one(is_province) } else { Ok(()) }
    }

    /// `( unit ) CTO province`
    fn convoy(&mut self) -> Parsed {
        self.unit_group()?;
        self.word(CTO)?;
        self.one(is_province)
    }

    /// `province VIA ( province+ )`
    fn convoyed_move(&mut self) -> Parsed {
        self.one(is_province)?;
        self.word(VIA)?;
        self.provinces_group()
    }

    /// `( order )`
    pub fn order_group(&mut self) -> Parsed {
        self.group(Self::order)
    }
}
