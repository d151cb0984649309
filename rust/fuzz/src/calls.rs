//! The eight calls of the library.
mod add;
mod check;
mod file;
mod list;
mod short;
mod sitting;
mod start;
mod within;

pub use add::Add;
pub use check::Check;
pub use file::File;
pub use list::List;
pub use short::Short;
pub use sitting::Sitting;
pub use start::Start;
pub use within::Within;
