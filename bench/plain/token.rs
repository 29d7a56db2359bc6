//! The codes of tokens, the categories that the grammar needs, and the names that an operator's word may not have.

/// Declares a constant for each token that the grammar needs by itself.
macro_rules! tokens {
    ($($name:ident $code:literal)*) => { $(pub const $name: u16 = $code;)* };
}

tokens! {
    BRA 0x4000 KET 0x4001
    AMY 0x4200 FLT 0x4201
    CTO 0x4320 CVY 0x4321 HLD 0x4322 MTO 0x4323 SUP 0x4324 VIA 0x4325 DSB 0x4340 RTO 0x4341
    BLD 0x4380 REM 0x4381 WVE 0x4382
    CCD 0x4800 DRW 0x4801 FRM 0x4802 GOF 0x4803 HLO 0x4804 HST 0x4805 HUH 0x4806 IAM 0x4807
    LOD 0x4808 MAP 0x4809 MDF 0x480A MIS 0x480B NME 0x480C NOT 0x480D NOW 0x480E OBS 0x480F
    OFF 0x4810 ORD 0x4811 OUT 0x4812 PRN 0x4813 REJ 0x4814 SCO 0x4815 SLO 0x4816 SND 0x4817
    SUB 0x4818 SVE 0x4819 THX 0x481A TME 0x481B YES 0x481C ADM 0x481D SMR 0x481E
    LVL 0x4903 MRT 0x4904 UNO 0x490B
    ALY 0x4A00 AND 0x4A01 BWX 0x4A02 DMZ 0x4A03 FCT 0x4A06 IDK 0x4A0A INS 0x4A0C OCC 0x4A0E
    ORR 0x4A0F PCE 0x4A10 PRP 0x4A13 QRY 0x4A14 SCD 0x4A15 SRY 0x4A16 SUG 0x4A17 THK 0x4A18
    TRY 0x4A1A VSS 0x4A1C XDO 0x4A1F
}

/// Returns the token of two bytes of a body.
pub fn token_of(bytes: [u8; 2]) -> u16 {
    u16::from_be_bytes(bytes)
}

pub fn is_number(token: u16) -> bool {
    token < 0x4000
}

pub fn is_power(token: u16) -> bool {
    token >> 8 == 0x41
}

pub fn is_unit_type(token: u16) -> bool {
    token == AMY || token == FLT
}

pub fn is_note(token: u16) -> bool {
    token >> 8 == 0x44
}

/// Returns whether a token is a result of an order: a note or an outcome.
pub fn is_result(token: u16) -> bool {
    matches!(token >> 8, 0x44 | 0x45)
}

pub fn is_coast(token: u16) -> bool {
    token >> 8 == 0x46
}

pub fn is_season(token: u16) -> bool {
    token >> 8 == 0x47
}

pub fn is_param(token: u16) -> bool {
    token >> 8 == 0x49
}

pub fn is_text(token: u16) -> bool {
    token >> 8 == 0x4B
}

pub fn is_province(token: u16) -> bool {
    token & 0xF800 == 0x5000
}

/// Returns whether a token has a known category. A frame with any other token is a fault.
pub fn is_known(token: u16) -> bool {
    token < 0x4C00 || is_province(token)
}

/// Returns whether an operator's word may have this code: one of category 4A that is neither a token of the protocol
/// nor barred.
pub fn is_free_code(token: u16) -> bool {
    let is_taken = matches!(
        token,
        ALY | AND | BWX | DMZ | FCT | IDK | INS | OCC | ORR | PCE | PRP | QRY | SCD | SRY | SUG | THK | TRY | VSS | XDO
    );
    token >> 8 == 0x4A && !is_taken && !matches!(token, 0x4A0D | 0x4A12 | 0x4A1B)
}

/// Returns whether the protocol has a token with this name.
pub fn is_protocol_name(name: &[u8]) -> bool {
    NAMES.split_ascii_whitespace().any(|known| known.as_bytes() == name)
}

/// The names of all tokens of the protocol, by category.
const NAMES: &str = "
    BRA KET AUS ENG FRA GER ITA RUS TUR AMY FLT CTO CVY HLD MTO SUP VIA DSB RTO BLD REM WVE
    MBV CST ESC FAR HSC NAS NMB NMR NRN NRS NSA NSC NSF NSP NSU NVR NYU YSC SUC BNC CUT DSR FLD NSO RET
    NCS NEC ECS SEC SCS SWC WCS NWC SPR SUM FAL AUT WIN
    CCD DRW FRM GOF HLO HST HUH IAM LOD MAP MDF MIS NME NOT NOW OBS
    OFF ORD OUT PRN REJ SCO SLO SND SUB SVE THX TME YES ADM SMR
    AOA BTL ERR LVL MRT MTL NPB NPR PDA PTL RTL UNO DSD
    ALY AND BWX DMZ FCT IDK INS OCC ORR PCE PRP QRY SCD SRY SUG THK TRY VSS XDO
    BOH BUR GAL RUH SIL TYR UKR BUD MOS MUN PAR SER VIE WAR
    ADR AEG BAL BAR BLA EAS ECH GOB GOL HEL ION IRI MAO NAO NTH NWG SKA TYS WES
    ALB APU ARM CLY FIN GAS LVN NAF PIC PIE PRU SYR TUS WAL YOR
    ANK BEL BER BRE CON DEN EDI GRE HOL KIE LON LVP MAR NAP NWY POR ROM RUM SEV SMY SWE TRI TUN VEN BUL SPA STP
";
