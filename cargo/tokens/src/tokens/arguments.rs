// Made from crates/tokens/src/arguments.rt by dev/erase: change that file, not this one.
//! The words of the command line.

use proved_tokens::shim::alloc::AllocError;
use proved_tokens::shim::env::Args;
use proved_tokens::shim::io;

/// Returns the words after the program's name, which is the first of its arguments.
///
/// There are no words if an argument isn't text. Returns an error if memory runs out for the list, or if the arguments
/// could not be had for another reason, which counts as running out of memory.
pub fn words(arguments: io::Result<Args>) -> Result<Vec<String>, AllocError>
{
    match arguments {
        Ok(arguments) => arguments.skip(1).collect(),
        Err(error) if is_no_text(error.kind()) => Ok(Vec::new()),
        Err(_) => Err(AllocError::met()),
    }
}

/// Whether the reason why there are no arguments is that one of them isn't text.
fn is_no_text(kind: io::ErrorKind) -> bool
{
    matches!(kind, io::ErrorKind::InvalidData)
}
