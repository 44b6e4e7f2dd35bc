//! Texts that are printed in the papers: the specimens of Doc 9303 parts 4 to 7, and T3 of document 01.

use crate::form::Form;

pub const T3: &str = "P<UTONORD<<ELIN<<<<<<<<<<<<<<<<<<<<<<<<<<<<<\
                      K7<<<<<<<1UTO9001158F3006302<<<<<<<<<<<<<<00";

/// Doc 9303-4, appendix A: a passport, with a personal number.
pub const ERIKSSON_TD3: &str = "P<UTOERIKSSON<<ANNA<MARIA<<<<<<<<<<<<<<<<<<<\
                                L898902C36UTO7408122F1204159ZE184226B<<<<<10";

/// Doc 9303-5, appendix A.
pub const ERIKSSON_TD1: &str = "I<UTOD231458907<<<<<<<<<<<<<<<\
                                7408122F1204159UTO<<<<<<<<<<<6\
                                ERIKSSON<<ANNA<MARIA<<<<<<<<<<";

/// Doc 9303-6, appendix A.
pub const ERIKSSON_TD2: &str = "I<UTOERIKSSON<<ANNA<MARIA<<<<<<<<<<<\
                                D231458907UTO7408122F1204159<<<<<<<6";

/// Doc 9303-5: the number D23145890734, longer than its field.
pub const LONG_TD1: &str = "I<UTOD23145890<7349<<<<<<<<<<<\
                            3407127M9507122UTO<<<<<<<<<<<2\
                            STEVENSON<<PETER<JOHN<<<<<<<<<";

/// Doc 9303-6: the same number in TD2.
pub const LONG_TD2: &str = "I<UTOSTEVENSON<<PETER<JOHN<<<<<<<<<<\
                            D23145890<UTO3407127M95071227349<<<8";

/// Doc 9303-7: a visa of format A, with optional data.
pub const ERIKSSON_MRV_A: &str = "V<UTOERIKSSON<<ANNA<MARIA<<<<<<<<<<<<<<<<<<<\
                                  L8988901C4XXX4009078F96121096ZE184226B<<<<<<";

/// Doc 9303-7: a visa of format B.
pub const ERIKSSON_MRV_B: &str = "V<UTOERIKSSON<<ANNA<MARIA<<<<<<<<<<<\
                                  L8988901C4XXX4009078F9612109<<<<<<<<";

pub const ALL: [&str; 8] =
    [T3, ERIKSSON_TD3, ERIKSSON_TD1, ERIKSSON_TD2, LONG_TD1, LONG_TD2, ERIKSSON_MRV_A, ERIKSSON_MRV_B];

/// The specimen of each form whose number is short.
pub fn short(form: Form) -> &'static str {
    match form {
        Form::Td1 => ERIKSSON_TD1,
        Form::Td2 => ERIKSSON_TD2,
        Form::Td3 => ERIKSSON_TD3,
        Form::MrvA => ERIKSSON_MRV_A,
        Form::MrvB => ERIKSSON_MRV_B,
    }
}
