//! The functions of the proved library as they stand in `include/naomhral.h`, which says what a caller owes. A list passes as its
//! first cell's place and its length.

extern "C" {
    pub fn naomhral_settle(
        sheet: *const u8,
        sheet_length: usize,
        figures: *mut u32,
        figures_length: usize,
        money: *mut i64,
        money_length: usize,
        schedule: *mut u32,
        schedule_length: usize,
        amounts: *mut u32,
        amounts_length: usize,
        summary: *mut u32,
        summary_length: usize,
    ) -> u32;

    pub fn naomhral_day(
        sheets: *const u8,
        sheets_length: usize,
        lengths: *const u32,
        figures: *mut u32,
        figures_length: usize,
        money: *mut i64,
        money_length: usize,
        schedule: *mut u32,
        schedule_length: usize,
        amounts: *mut u32,
        amounts_length: usize,
        summaries: *mut u32,
        summaries_length: usize,
    ) -> u32;

    pub fn naomhral_check(
        sheet: *const u8,
        sheet_length: usize,
        price: u32,
        figures: *const u32,
        figures_length: usize,
        money: *const i64,
        money_length: usize,
        schedule: *const u32,
        schedule_length: usize,
        amounts: *const u32,
        amounts_length: usize,
        answer: *mut u32,
        answer_length: usize,
    ) -> u32;

    pub fn naomhral_read(sheet: *const u8, sheet_length: usize, answer: *mut u32, answer_length: usize) -> u32;

    pub fn naomhral_write(
        agents: *const u32,
        agents_length: usize,
        boundaries: *const u32,
        boundaries_length: usize,
        plants: *const u32,
        plants_length: usize,
        contracts: *const u32,
        contracts_length: usize,
        out: *mut u8,
        out_length: usize,
        answer: *mut u32,
        answer_length: usize,
    ) -> u32;

    pub fn naomhral_share(amount: u32, weights: *const u32, weights_length: usize, out: *mut u32, out_length: usize) -> u32;

    pub fn naomhral_page(
        sheet: *const u8,
        sheet_length: usize,
        out: *mut u8,
        out_length: usize,
        answer: *mut u32,
        answer_length: usize,
    ) -> u32;

    pub fn naomhral_why_plant(
        sheet: *const u8,
        sheet_length: usize,
        plant: u32,
        answer: *mut u32,
        answer_length: usize,
    ) -> u32;

    pub fn naomhral_why_contract(
        sheet: *const u8,
        sheet_length: usize,
        contract: u32,
        answer: *mut u32,
        answer_length: usize,
    ) -> u32;

    pub fn naomhral_mend(
        sheet: *const u8,
        sheet_length: usize,
        copy: *mut u8,
        copy_length: usize,
        report: *mut u32,
        report_length: usize,
        answer: *mut u32,
        answer_length: usize,
    ) -> u32;

    pub fn naomhral_book_empty(book: *mut u64, book_length: usize) -> u32;

    pub fn naomhral_book_enter(
        book: *mut u64,
        book_length: usize,
        hour: u32,
        demand: u32,
        losses: u32,
        bought: u32,
        price: u32,
    ) -> u32;

    pub fn naomhral_book_remove(book: *mut u64, book_length: usize, hour: u32) -> u32;

    pub fn naomhral_entry(
        sheet: *const u8,
        sheet_length: usize,
        summary: *const u32,
        summary_length: usize,
        figures: *const u32,
        figures_length: usize,
        answer: *mut u32,
        answer_length: usize,
    ) -> u32;

    pub fn naomhral_sheet_text(
        sheet: *const u8,
        sheet_length: usize,
        out: *mut u8,
        out_length: usize,
        answer: *mut u32,
        answer_length: usize,
    ) -> u32;

    pub fn naomhral_make_sheet(
        text: *const u8,
        text_length: usize,
        out: *mut u8,
        out_length: usize,
        answer: *mut u32,
        answer_length: usize,
    ) -> u32;

    pub fn naomhral_statement_text(
        sheet: *const u8,
        sheet_length: usize,
        out: *mut u8,
        out_length: usize,
        answer: *mut u32,
        answer_length: usize,
    ) -> u32;

    pub fn naomhral_read_statement(
        text: *const u8,
        text_length: usize,
        agents: u32,
        plants: u32,
        contracts: u32,
        figures: *mut u32,
        figures_length: usize,
        money: *mut i64,
        money_length: usize,
        schedule: *mut u32,
        schedule_length: usize,
        amounts: *mut u32,
        amounts_length: usize,
        answer: *mut u32,
        answer_length: usize,
    ) -> u32;
}
