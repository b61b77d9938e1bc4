//! The system's numbers of its errors.

pub const ENOENT: i32 = 2;
pub const EINTR: i32 = 4;
pub const EIO: i32 = 5;
pub const EBADF: i32 = 9;
pub const ENOTDIR: i32 = 20;
pub const EISDIR: i32 = 21;
pub const EFBIG: i32 = 27;
pub const ENOSPC: i32 = 28;
pub const EPIPE: i32 = 32;
pub const ENAMETOOLONG: i32 = 36;
pub const ELOOP: i32 = 40;
pub const EILSEQ: i32 = 84;
