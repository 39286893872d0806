//! The archive's functions as include/flytewood.h declares them: a slice is a pointer and a length, numbers
//! are 64 bits wide.

type Bytes = *const u8;
type Lent = *mut u8;
type Number = *mut u64;

extern "C" {
    pub fn fw_book_len() -> u64;
    pub fn fw_start(b: Lent, bl: usize, a: Lent, al: usize, first: u64) -> u64;
    pub fn fw_create_category(b: Lent, bl: usize, a: Lent, al: usize, caller: u64, value: Number) -> u64;
    pub fn fw_set_label(
        b: Lent,
        bl: usize,
        a: Lent,
        al: usize,
        caller: u64,
        label: Bytes,
        label_len: usize,
        value: Number,
    ) -> u64;
    pub fn fw_set_clearance(
        b: Lent,
        bl: usize,
        a: Lent,
        al: usize,
        caller: u64,
        clearance: Bytes,
        clearance_len: usize,
        value: Number,
    ) -> u64;
    pub fn fw_create_container(
        b: Lent,
        bl: usize,
        a: Lent,
        al: usize,
        caller: u64,
        d: u64,
        label: Bytes,
        label_len: usize,
        description: Bytes,
        description_len: usize,
        mask: u64,
        quota: u64,
        value: Number,
    ) -> u64;
    pub fn fw_create_segment(
        b: Lent,
        bl: usize,
        a: Lent,
        al: usize,
        caller: u64,
        d: u64,
        label: Bytes,
        label_len: usize,
        description: Bytes,
        description_len: usize,
        quota: u64,
        value: Number,
    ) -> u64;
    pub fn fw_create_gate(
        b: Lent,
        bl: usize,
        a: Lent,
        al: usize,
        caller: u64,
        d: u64,
        label: Bytes,
        label_len: usize,
        clearance: Bytes,
        clearance_len: usize,
        entry: u64,
        closure: Bytes,
        closure_len: usize,
        description: Bytes,
        description_len: usize,
        value: Number,
    ) -> u64;
    pub fn fw_create_thread(
        b: Lent,
        bl: usize,
        a: Lent,
        al: usize,
        caller: u64,
        d: u64,
        label: Bytes,
        label_len: usize,
        clearance: Bytes,
        clearance_len: usize,
        description: Bytes,
        description_len: usize,
        value: Number,
    ) -> u64;
    pub fn fw_unreference(
        b: Lent,
        bl: usize,
        a: Lent,
        al: usize,
        caller: u64,
        d: u64,
        o: u64,
        value: Number,
    ) -> u64;
    pub fn fw_link_segment(
        b: Lent,
        bl: usize,
        a: Lent,
        al: usize,
        caller: u64,
        d1: u64,
        o: u64,
        d: u64,
        value: Number,
    ) -> u64;
    pub fn fw_fix_quota(
        b: Lent,
        bl: usize,
        a: Lent,
        al: usize,
        caller: u64,
        d: u64,
        o: u64,
        value: Number,
    ) -> u64;
    pub fn fw_move_quota(
        b: Lent,
        bl: usize,
        a: Lent,
        al: usize,
        caller: u64,
        d: u64,
        o: u64,
        n: i64,
        value: Number,
    ) -> u64;
    pub fn fw_read(
        b: Lent,
        bl: usize,
        a: Lent,
        al: usize,
        caller: u64,
        d: u64,
        s: u64,
        k: u64,
        from: u64,
        count: u64,
        place: Number,
        length: Number,
        value: Number,
    ) -> u64;
    pub fn fw_write(
        b: Lent,
        bl: usize,
        a: Lent,
        al: usize,
        caller: u64,
        d: u64,
        s: u64,
        k: u64,
        from: u64,
        count: u64,
        bytes: Bytes,
        bytes_len: usize,
        value: Number,
    ) -> u64;
    pub fn fw_resize(
        b: Lent,
        bl: usize,
        a: Lent,
        al: usize,
        caller: u64,
        d: u64,
        s: u64,
        length: u64,
        value: Number,
    ) -> u64;
    pub fn fw_enter_gate(
        b: Lent,
        bl: usize,
        a: Lent,
        al: usize,
        caller: u64,
        d: u64,
        g: u64,
        label_r: Bytes,
        label_r_len: usize,
        clearance_r: Bytes,
        clearance_r_len: usize,
        label_v: Bytes,
        label_v_len: usize,
        out: Lent,
        out_len: usize,
        value: Number,
    ) -> u64;
    pub fn fw_look(
        b: Lent,
        bl: usize,
        a: Lent,
        al: usize,
        caller: u64,
        d: u64,
        o: u64,
        out: Lent,
        out_len: usize,
        value: Number,
    ) -> u64;
}
