//! The functions of the archive, as safe functions over slices of words. This is the only module with `unsafe` in it.
//!
//! The archive asks one thing of its caller: each pointer is aligned and valid for its words, and what is lent for writing
//! overlaps nothing else. Rust's references give this, empty slices too. So every word and every number is allowed here.

extern "C" {
    fn marshtrundle_run(
        table: *const u32,
        table_words: usize,
        store: *mut u32,
        store_words: usize,
        bindings: *mut u32,
        bindings_words: usize,
        mark: u32,
        start: u32,
        subject: u32,
        units: u32,
        numbers: *mut u32,
    );
    fn marshtrundle_run_signed(
        table: *const u32,
        table_words: usize,
        store: *mut u32,
        store_words: usize,
        bindings: *mut u32,
        bindings_words: usize,
        mark: u32,
        start: u32,
        subject: u32,
        units: u32,
        signature: *const u32,
        signature_words: usize,
        numbers: *mut u32,
    );
    fn marshtrundle_run_many(
        table: *const u32,
        table_words: usize,
        store: *mut u32,
        store_words: usize,
        bindings: *const u32,
        bindings_words: usize,
        mark: u32,
        start: u32,
        subjects: *const u32,
        subjects_words: usize,
        units: u32,
        results: *mut u32,
        results_words: usize,
        numbers: *mut u32,
    );
    fn marshtrundle_run_many_signed(
        table: *const u32,
        table_words: usize,
        store: *mut u32,
        store_words: usize,
        bindings: *const u32,
        bindings_words: usize,
        mark: u32,
        start: u32,
        subjects: *const u32,
        subjects_words: usize,
        units: u32,
        results: *mut u32,
        results_words: usize,
        signature: *const u32,
        signature_words: usize,
        numbers: *mut u32,
    );
    fn marshtrundle_start(
        table: *const u32,
        table_words: usize,
        store: *const u32,
        store_words: usize,
        bindings: *const u32,
        bindings_words: usize,
        work: *mut u32,
        work_words: usize,
        mark: u32,
        start: u32,
        subject: u32,
        units: u32,
        numbers: *mut u32,
    );
    fn marshtrundle_start_signed(
        table: *const u32,
        table_words: usize,
        store: *const u32,
        store_words: usize,
        bindings: *const u32,
        bindings_words: usize,
        work: *mut u32,
        work_words: usize,
        mark: u32,
        start: u32,
        subject: u32,
        units: u32,
        signature: *const u32,
        signature_words: usize,
        numbers: *mut u32,
    );
    fn marshtrundle_step(
        table: *const u32,
        table_words: usize,
        store: *mut u32,
        store_words: usize,
        bindings: *mut u32,
        bindings_words: usize,
        work: *mut u32,
        work_words: usize,
        visits: u32,
        numbers: *mut u32,
    );
    fn marshtrundle_run_indexed(
        table: *const u32,
        table_words: usize,
        lent: *mut u32,
        lent_words: usize,
        words: u32,
        bindings: *mut u32,
        bindings_words: usize,
        mark: u32,
        start: u32,
        subject: u32,
        units: u32,
        numbers: *mut u32,
    );
    fn marshtrundle_run_indexed_signed(
        table: *const u32,
        table_words: usize,
        lent: *mut u32,
        lent_words: usize,
        words: u32,
        bindings: *mut u32,
        bindings_words: usize,
        mark: u32,
        start: u32,
        subject: u32,
        units: u32,
        signature: *const u32,
        signature_words: usize,
        numbers: *mut u32,
    );
    fn marshtrundle_run_many_indexed(
        table: *const u32,
        table_words: usize,
        lent: *mut u32,
        lent_words: usize,
        words: u32,
        bindings: *const u32,
        bindings_words: usize,
        mark: u32,
        start: u32,
        subjects: *const u32,
        subjects_words: usize,
        units: u32,
        results: *mut u32,
        results_words: usize,
        numbers: *mut u32,
    );
    fn marshtrundle_run_many_indexed_signed(
        table: *const u32,
        table_words: usize,
        lent: *mut u32,
        lent_words: usize,
        words: u32,
        bindings: *const u32,
        bindings_words: usize,
        mark: u32,
        start: u32,
        subjects: *const u32,
        subjects_words: usize,
        units: u32,
        results: *mut u32,
        results_words: usize,
        signature: *const u32,
        signature_words: usize,
        numbers: *mut u32,
    );
    fn marshtrundle_run_counted(
        table: *const u32,
        table_words: usize,
        store: *mut u32,
        store_words: usize,
        bindings: *mut u32,
        bindings_words: usize,
        mark: u32,
        start: u32,
        subject: u32,
        units: u32,
        counts: *mut u64,
        counts_words: usize,
        numbers: *mut u32,
    );
    fn marshtrundle_run_counted_signed(
        table: *const u32,
        table_words: usize,
        store: *mut u32,
        store_words: usize,
        bindings: *mut u32,
        bindings_words: usize,
        mark: u32,
        start: u32,
        subject: u32,
        units: u32,
        counts: *mut u64,
        counts_words: usize,
        signature: *const u32,
        signature_words: usize,
        numbers: *mut u32,
    );
    fn marshtrundle_run_indexed_counted(
        table: *const u32,
        table_words: usize,
        lent: *mut u32,
        lent_words: usize,
        words: u32,
        bindings: *mut u32,
        bindings_words: usize,
        mark: u32,
        start: u32,
        subject: u32,
        units: u32,
        counts: *mut u64,
        counts_words: usize,
        numbers: *mut u32,
    );
    fn marshtrundle_run_indexed_counted_signed(
        table: *const u32,
        table_words: usize,
        lent: *mut u32,
        lent_words: usize,
        words: u32,
        bindings: *mut u32,
        bindings_words: usize,
        mark: u32,
        start: u32,
        subject: u32,
        units: u32,
        counts: *mut u64,
        counts_words: usize,
        signature: *const u32,
        signature_words: usize,
        numbers: *mut u32,
    );
    fn marshtrundle_collect(
        store: *mut u32,
        store_words: usize,
        bindings: *mut u32,
        bindings_words: usize,
        work: *mut u32,
        work_words: usize,
        mark: u32,
        subject: u32,
        numbers: *mut u32,
    );
    fn marshtrundle_free_variables(
        table: *const u32,
        table_words: usize,
        entry: u32,
        numbers: *mut u64,
    );
    fn marshtrundle_check_table(table: *const u32, words: usize, numbers: *mut u32);
    fn marshtrundle_check_store(store: *const u32, words: usize, mark: u32, numbers: *mut u32);
    fn marshtrundle_translate_rules(
        table: *mut u32,
        table_words: usize,
        used: u32,
        text: *const u8,
        text_bytes: usize,
        numbers: *mut u64,
    );
    fn marshtrundle_write_rule(
        table: *const u32,
        table_words: usize,
        used: u32,
        entry: u32,
        buffer: *mut u8,
        buffer_bytes: usize,
        numbers: *mut u64,
    );
}

/// The run: answer, place, subject, mark and units used. The calling thread needs [`STACK`](crate::STACK) bytes of stack.
#[allow(clippy::too_many_arguments)]
pub fn run(
    table: &[u32],
    store: &mut [u32],
    bindings: &mut [u32],
    mark: u32,
    start: u32,
    subject: u32,
    units: u32,
) -> [u32; 5] {
    let mut numbers = [0; 5];
    // SAFETY: each pointer comes from a reference that lives through the call, and goes with its own length. The three
    // that are written are mutable references, so they overlap nothing. The archive keeps no pointer. A stack that is too
    // small ends at the guard page, for the archive's one large frame touches every page of it in order.
    unsafe {
        marshtrundle_run(
            table.as_ptr(),
            table.len(),
            store.as_mut_ptr(),
            store.len(),
            bindings.as_mut_ptr(),
            bindings.len(),
            mark,
            start,
            subject,
            units,
            numbers.as_mut_ptr(),
        );
    }
    numbers
}

/// The run with a signature: answer, place, subject, mark and units used. An empty signature declares nothing.
#[allow(clippy::too_many_arguments)]
pub fn run_signed(
    table: &[u32],
    store: &mut [u32],
    bindings: &mut [u32],
    mark: u32,
    start: u32,
    subject: u32,
    units: u32,
    signature: &[u32],
) -> [u32; 5] {
    let mut numbers = [0; 5];
    // SAFETY: as in `run`. The signature is only read.
    unsafe {
        marshtrundle_run_signed(
            table.as_ptr(),
            table.len(),
            store.as_mut_ptr(),
            store.len(),
            bindings.as_mut_ptr(),
            bindings.len(),
            mark,
            start,
            subject,
            units,
            signature.as_ptr(),
            signature.len(),
            numbers.as_mut_ptr(),
        );
    }
    numbers
}

/// The run on each of many subjects: answer and place. The result list has five words for each subject: answer, place, subject,
/// mark and units used. The calling thread needs [`STACK`](crate::STACK) bytes of stack.
#[allow(clippy::too_many_arguments)]
pub fn run_many(
    table: &[u32],
    store: &mut [u32],
    bindings: &[u32],
    mark: u32,
    start: u32,
    subjects: &[u32],
    units: u32,
    results: &mut [u32],
) -> [u32; 2] {
    let mut numbers = [0; 2];
    // SAFETY: as in `run`. Store, results and `numbers`, which has the two words that are written, are mutable references; the
    // rest is only read.
    unsafe {
        marshtrundle_run_many(
            table.as_ptr(),
            table.len(),
            store.as_mut_ptr(),
            store.len(),
            bindings.as_ptr(),
            bindings.len(),
            mark,
            start,
            subjects.as_ptr(),
            subjects.len(),
            units,
            results.as_mut_ptr(),
            results.len(),
            numbers.as_mut_ptr(),
        );
    }
    numbers
}

/// The run on each of many subjects with a signature: answer and place. An empty signature declares nothing.
#[allow(clippy::too_many_arguments)]
pub fn run_many_signed(
    table: &[u32],
    store: &mut [u32],
    bindings: &[u32],
    mark: u32,
    start: u32,
    subjects: &[u32],
    units: u32,
    results: &mut [u32],
    signature: &[u32],
) -> [u32; 2] {
    let mut numbers = [0; 2];
    // SAFETY: as in `run_many`. The signature is only read.
    unsafe {
        marshtrundle_run_many_signed(
            table.as_ptr(),
            table.len(),
            store.as_mut_ptr(),
            store.len(),
            bindings.as_ptr(),
            bindings.len(),
            mark,
            start,
            subjects.as_ptr(),
            subjects.len(),
            units,
            results.as_mut_ptr(),
            results.len(),
            signature.as_ptr(),
            signature.len(),
            numbers.as_mut_ptr(),
        );
    }
    numbers
}

/// Starts a run that is made in steps: answer, place, subject, mark and units used. The work list has at least [`WORK_WORDS`](crate::WORK_WORDS)
/// words, and holds the run until its end. The answer is 25, or a refusal, which writes nothing.
#[allow(clippy::too_many_arguments)]
pub fn start(
    table: &[u32],
    store: &[u32],
    bindings: &[u32],
    work: &mut [u32],
    mark: u32,
    start: u32,
    subject: u32,
    units: u32,
) -> [u32; 5] {
    let mut numbers = [0; 5];
    // SAFETY: as in `run`. The work list and `numbers` are mutable references; the rest is only read.
    unsafe {
        marshtrundle_start(
            table.as_ptr(),
            table.len(),
            store.as_ptr(),
            store.len(),
            bindings.as_ptr(),
            bindings.len(),
            work.as_mut_ptr(),
            work.len(),
            mark,
            start,
            subject,
            units,
            numbers.as_mut_ptr(),
        );
    }
    numbers
}

/// Starts a run in steps with a signature. An empty signature declares nothing.
#[allow(clippy::too_many_arguments)]
pub fn start_signed(
    table: &[u32],
    store: &[u32],
    bindings: &[u32],
    work: &mut [u32],
    mark: u32,
    start: u32,
    subject: u32,
    units: u32,
    signature: &[u32],
) -> [u32; 5] {
    let mut numbers = [0; 5];
    // SAFETY: as in `start`. The signature is only read.
    unsafe {
        marshtrundle_start_signed(
            table.as_ptr(),
            table.len(),
            store.as_ptr(),
            store.len(),
            bindings.as_ptr(),
            bindings.len(),
            work.as_mut_ptr(),
            work.len(),
            mark,
            start,
            subject,
            units,
            signature.as_ptr(),
            signature.len(),
            numbers.as_mut_ptr(),
        );
    }
    numbers
}

/// Makes so many visits of the run that a work list holds, or fewer where it ends: answer, place, subject, mark and units used. Table, store,
/// bindings and work list are those of the start, as the last call left them. The answer is 25 while the run goes on. At its end the five
/// numbers, the store and the bindings are those of [`run`], and the work list is zero; a step on a zero work list answers 27.
pub fn step(
    table: &[u32],
    store: &mut [u32],
    bindings: &mut [u32],
    work: &mut [u32],
    visits: u32,
) -> [u32; 5] {
    let mut numbers = [0; 5];
    // SAFETY: as in `run`. Store, bindings, work list and `numbers` are mutable references. The archive reads and writes nothing outside them,
    // whatever they hold.
    unsafe {
        marshtrundle_step(
            table.as_ptr(),
            table.len(),
            store.as_mut_ptr(),
            store.len(),
            bindings.as_mut_ptr(),
            bindings.len(),
            work.as_mut_ptr(),
            work.len(),
            visits,
            numbers.as_mut_ptr(),
        );
    }
    numbers
}

/// The run with an index: answer, place, subject, mark and units used. The first `words` of `lent` are the store's, and the rest is the
/// index, at least two words for each node.
#[allow(clippy::too_many_arguments)]
pub fn run_indexed(
    table: &[u32],
    lent: &mut [u32],
    words: u32,
    bindings: &mut [u32],
    mark: u32,
    start: u32,
    subject: u32,
    units: u32,
    signature: Option<&[u32]>,
) -> [u32; 5] {
    let mut numbers = [0; 5];
    // SAFETY: as in `run`. Lent words and bindings are mutable references, and `numbers` has the five words that are written.
    unsafe {
        match signature {
            Some(signature) => marshtrundle_run_indexed_signed(
                table.as_ptr(),
                table.len(),
                lent.as_mut_ptr(),
                lent.len(),
                words,
                bindings.as_mut_ptr(),
                bindings.len(),
                mark,
                start,
                subject,
                units,
                signature.as_ptr(),
                signature.len(),
                numbers.as_mut_ptr(),
            ),
            None => marshtrundle_run_indexed(
                table.as_ptr(),
                table.len(),
                lent.as_mut_ptr(),
                lent.len(),
                words,
                bindings.as_mut_ptr(),
                bindings.len(),
                mark,
                start,
                subject,
                units,
                numbers.as_mut_ptr(),
            ),
        }
    }
    numbers
}

/// The call over many subjects with an index: answer and place.
#[allow(clippy::too_many_arguments)]
pub fn run_many_indexed(
    table: &[u32],
    lent: &mut [u32],
    words: u32,
    bindings: &[u32],
    mark: u32,
    start: u32,
    subjects: &[u32],
    units: u32,
    results: &mut [u32],
    signature: Option<&[u32]>,
) -> [u32; 2] {
    let mut numbers = [0; 2];
    // SAFETY: as in `run_many`. Lent words and results are mutable references, and `numbers` has the two words that are written.
    unsafe {
        match signature {
            Some(signature) => marshtrundle_run_many_indexed_signed(
                table.as_ptr(),
                table.len(),
                lent.as_mut_ptr(),
                lent.len(),
                words,
                bindings.as_ptr(),
                bindings.len(),
                mark,
                start,
                subjects.as_ptr(),
                subjects.len(),
                units,
                results.as_mut_ptr(),
                results.len(),
                signature.as_ptr(),
                signature.len(),
                numbers.as_mut_ptr(),
            ),
            None => marshtrundle_run_many_indexed(
                table.as_ptr(),
                table.len(),
                lent.as_mut_ptr(),
                lent.len(),
                words,
                bindings.as_ptr(),
                bindings.len(),
                mark,
                start,
                subjects.as_ptr(),
                subjects.len(),
                units,
                results.as_mut_ptr(),
                results.len(),
                numbers.as_mut_ptr(),
            ),
        }
    }
    numbers
}

/// The run with counts: answer, place, subject, mark and units used, then the visits of patterns and of pairs. The counts are four words for
/// each entry of the table: visits as a strategy, successes, failures, and visits in flight at a cut-off. The run adds to them.
#[allow(clippy::too_many_arguments)]
pub fn run_counted(
    table: &[u32],
    store: &mut [u32],
    bindings: &mut [u32],
    mark: u32,
    start: u32,
    subject: u32,
    units: u32,
    counts: &mut [u64],
    signature: Option<&[u32]>,
) -> [u32; 7] {
    let mut numbers = [0; 7];
    // SAFETY: as in `run`. Store, bindings and counts are mutable references, and `numbers` has the seven words that are written.
    unsafe {
        match signature {
            Some(signature) => marshtrundle_run_counted_signed(
                table.as_ptr(),
                table.len(),
                store.as_mut_ptr(),
                store.len(),
                bindings.as_mut_ptr(),
                bindings.len(),
                mark,
                start,
                subject,
                units,
                counts.as_mut_ptr(),
                counts.len(),
                signature.as_ptr(),
                signature.len(),
                numbers.as_mut_ptr(),
            ),
            None => marshtrundle_run_counted(
                table.as_ptr(),
                table.len(),
                store.as_mut_ptr(),
                store.len(),
                bindings.as_mut_ptr(),
                bindings.len(),
                mark,
                start,
                subject,
                units,
                counts.as_mut_ptr(),
                counts.len(),
                numbers.as_mut_ptr(),
            ),
        }
    }
    numbers
}

/// The run with counts and an index. The first `words` of `lent` are the store's, and the rest is the index, at least two words for each
/// node. Making a node takes time that grows with the nodes in use.
#[allow(clippy::too_many_arguments)]
pub fn run_indexed_counted(
    table: &[u32],
    lent: &mut [u32],
    words: u32,
    bindings: &mut [u32],
    mark: u32,
    start: u32,
    subject: u32,
    units: u32,
    counts: &mut [u64],
    signature: Option<&[u32]>,
) -> [u32; 7] {
    let mut numbers = [0; 7];
    // SAFETY: as in `run`. Lent words, bindings and counts are mutable references, and `numbers` has the seven words that are written.
    unsafe {
        match signature {
            Some(signature) => marshtrundle_run_indexed_counted_signed(
                table.as_ptr(),
                table.len(),
                lent.as_mut_ptr(),
                lent.len(),
                words,
                bindings.as_mut_ptr(),
                bindings.len(),
                mark,
                start,
                subject,
                units,
                counts.as_mut_ptr(),
                counts.len(),
                signature.as_ptr(),
                signature.len(),
                numbers.as_mut_ptr(),
            ),
            None => marshtrundle_run_indexed_counted(
                table.as_ptr(),
                table.len(),
                lent.as_mut_ptr(),
                lent.len(),
                words,
                bindings.as_mut_ptr(),
                bindings.len(),
                mark,
                start,
                subject,
                units,
                counts.as_mut_ptr(),
                counts.len(),
                numbers.as_mut_ptr(),
            ),
        }
    }
    numbers
}

/// The collection: answer, place, subject and mark. The work list has a word for each node of the store, or more. Where the
/// answer is 0 it is zero afterwards.
pub fn collect(
    store: &mut [u32],
    bindings: &mut [u32],
    work: &mut [u32],
    mark: u32,
    subject: u32,
) -> [u32; 4] {
    let mut numbers = [0; 4];
    // SAFETY: as in `run`. The three slices are mutable references, and `numbers` has the four words that are written.
    unsafe {
        marshtrundle_collect(
            store.as_mut_ptr(),
            store.len(),
            bindings.as_mut_ptr(),
            bindings.len(),
            work.as_mut_ptr(),
            work.len(),
            mark,
            subject,
            numbers.as_mut_ptr(),
        );
    }
    numbers
}

/// The question of free variables: answer, place and mask.
pub fn free_variables(table: &[u32], entry: u32) -> [u64; 3] {
    let mut numbers = [0; 3];
    // SAFETY: as in `run`. The table is only read, and `numbers` has the three words that are written.
    unsafe {
        marshtrundle_free_variables(table.as_ptr(), table.len(), entry, numbers.as_mut_ptr());
    }
    numbers
}

/// The table check: answer and place.
pub fn check_table(table: &[u32]) -> [u32; 2] {
    let mut numbers = [0; 2];
    // SAFETY: as in `run`. The table is only read, and `numbers` has the two words that are written.
    unsafe {
        marshtrundle_check_table(table.as_ptr(), table.len(), numbers.as_mut_ptr());
    }
    numbers
}

/// The store check: answer and place.
pub fn check_store(store: &[u32], mark: u32) -> [u32; 2] {
    let mut numbers = [0; 2];
    // SAFETY: as in `run`. The store is only read, and `numbers` has the two words that are written.
    unsafe {
        marshtrundle_check_store(store.as_ptr(), store.len(), mark, numbers.as_mut_ptr());
    }
    numbers
}

/// Rules as text into a table whose first `used` entries are in use: answer, line, field and the entries in use then.
pub fn translate_rules(table: &mut [u32], used: u32, text: &[u8]) -> [u64; 4] {
    let mut numbers = [0; 4];
    // SAFETY: as in `run`. The table is a mutable reference, the text is only read, and `numbers` has the four words that are written.
    unsafe {
        marshtrundle_translate_rules(
            table.as_mut_ptr(),
            table.len(),
            used,
            text.as_ptr(),
            text.len(),
            numbers.as_mut_ptr(),
        );
    }
    numbers
}

/// The rule that starts at an entry, as a line at the start of the buffer: answer, place and length.
pub fn write_rule(table: &[u32], used: u32, entry: u32, buffer: &mut [u8]) -> [u64; 3] {
    let mut numbers = [0; 3];
    // SAFETY: as in `run`. The buffer is a mutable reference, the table is only read, and `numbers` has the three words that are
    // written.
    unsafe {
        marshtrundle_write_rule(
            table.as_ptr(),
            table.len(),
            used,
            entry,
            buffer.as_mut_ptr(),
            buffer.len(),
            numbers.as_mut_ptr(),
        );
    }
    numbers
}
