//! The proved library's three calls, with the types of this codec. They come
//! from the archive that include/jabcode.h declares.

use second::{Params, ReadAnswer, Refusal, Sizes};

/// The check sum of the archive, where the build gives it. A new sum makes the
/// compiler link anew.
pub fn archive() -> &'static str {
    option_env!("JABCODE_ARCHIVE").unwrap_or("of unknown check sum")
}

#[link(name = "jabcode_c", kind = "static")]
extern "C" {
    fn jab_sizes(params: *const u32, reserved: *const u16, reserved_len: usize, answer: *mut u64);

    fn jab_write(
        params: *const u32,
        reserved: *const u16,
        reserved_len: usize,
        message: *const u8,
        message_len: usize,
        matrix: *mut u8,
        matrix_len: usize,
        work: *mut u8,
        work_len: usize,
        answer: *mut u64,
    );

    fn jab_read(
        params: *const u32,
        reserved: *const u16,
        reserved_len: usize,
        matrix: *const u8,
        matrix_len: usize,
        work: *mut u8,
        work_len: usize,
        message: *mut u8,
        message_len: usize,
        places: *mut u16,
        places_len: usize,
        answer: *mut u64,
    );
}

fn numbers(p: &Params) -> [u32; 11] {
    [
        p.kind,
        p.horizontal,
        p.vertical,
        p.colours,
        p.black,
        p.cyan,
        p.yellow,
        p.wc,
        p.wr,
        p.mask,
        p.turn,
    ]
}

/// What stands around the parameters and the answer, and in the answer before
/// the call.
const GUARD: u32 = 0xA55A_C33C;
const WIDE_GUARD: u64 = 0xA55A_C33C_5AA5_3CC3;
const FRONT: usize = 8;

/// Numbers between two guards.
fn guarded<T: Copy>(guard: T, numbers: &[T]) -> [T; 32] {
    let mut lent = [guard; 32];
    lent[FRONT..FRONT + numbers.len()].copy_from_slice(numbers);
    lent
}

/// The N numbers that a call with the parameters answers: the header's structs
/// lie in memory as arrays of their members. It must store nothing around them,
/// and leave the parameters alone.
fn answer_of<const N: usize>(p: &Params, call: impl FnOnce(*const u32, *mut u64)) -> [u64; N] {
    let given = guarded(GUARD, &numbers(p));
    // mutable both, or the compiler might take it that nothing was stored
    let (mut params, mut lent) = (given, [WIDE_GUARD; 32]);
    call(
        params.as_mut_ptr().wrapping_add(FRONT),
        lent.as_mut_ptr().wrapping_add(FRONT),
    );
    let answer: [u64; N] = lent[FRONT..FRONT + N].try_into().expect("N numbers");
    assert_eq!(params, given, "the parameters and what is around them");
    assert_eq!(
        lent,
        guarded(WIDE_GUARD, &answer),
        "what is around the answer"
    );
    answer
}

fn refusal(number: u64, place: u64) -> Refusal {
    Refusal {
        number: narrow(number),
        place: place as usize,
    }
}

fn narrow(number: u64) -> u32 {
    u32::try_from(number).expect("a number of the papers")
}

pub fn sizes(p: &Params, list: &[u16]) -> Result<Sizes, Refusal> {
    // SAFETY: the pointers come from borrows that last over the call, with
    // their lengths; params and answer have the elements that the header asks.
    let [number, place, counts @ ..]: [u64; 9] = answer_of(p, |params, answer| unsafe {
        jab_sizes(params, list.as_ptr(), list.len(), answer)
    });
    if number != 0 {
        assert_eq!(counts, [0; 7], "the sizes beside a refusal");
        return Err(refusal(number, place));
    }
    assert_eq!(place, 0, "the place beside sizes");
    let [columns, rows, capacity, net, work, gross, checks] = counts.map(|count| count as usize);
    Ok(Sizes {
        columns,
        rows,
        capacity,
        net,
        work,
        gross,
        checks,
    })
}

pub fn write(
    p: &Params,
    list: &[u16],
    message: &[u8],
    matrix: &mut [u8],
    work: &mut [u8],
) -> Refusal {
    // SAFETY: as in `sizes`; matrix and work are borrowed exclusively, so they
    // overlap nothing.
    let [number, place] = answer_of(p, |params, answer| unsafe {
        jab_write(
            params,
            list.as_ptr(),
            list.len(),
            message.as_ptr(),
            message.len(),
            matrix.as_mut_ptr(),
            matrix.len(),
            work.as_mut_ptr(),
            work.len(),
            answer,
        )
    });
    refusal(number, place)
}

pub fn read(
    p: &Params,
    list: &[u16],
    matrix: &[u8],
    work: &mut [u8],
    message: &mut [u8],
    places: &mut [u16],
) -> ReadAnswer {
    // SAFETY: as in `sizes`; work, message and places are borrowed exclusively,
    // so they overlap nothing.
    let [number, place, counts @ ..]: [u64; 6] = answer_of(p, |params, answer| unsafe {
        jab_read(
            params,
            list.as_ptr(),
            list.len(),
            matrix.as_ptr(),
            matrix.len(),
            work.as_mut_ptr(),
            work.len(),
            message.as_mut_ptr(),
            message.len(),
            places.as_mut_ptr(),
            places.len(),
            answer,
        )
    });
    let [length, repairs, unmet, stuffing] = counts.map(|count| count as usize);
    ReadAnswer {
        number: narrow(number),
        place: place as usize,
        length,
        repairs,
        unmet,
        stuffing,
    }
}
