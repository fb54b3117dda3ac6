// Made of crates/cli/src/limits.rt by rust/erase. It isn't edited by hand.

//! The limits that two options give.

use crate::kit::programs::clap::ArgMatches;
use crate::allocator::Limits;

/// The limits that the two options give.
#[inline]
pub(crate) fn limits_of(options: &ArgMatches<'_>) -> Limits
    // requires slots { HasNumber (codes "slots") 4294967295 (given options.now) }
    // requires generations { HasNumber (codes "generations") 2147483647 (given options.now) }
    // ensures slots { option_number (codes "slots") (given options.now) ≡ Some result.slots }
    // ensures generations { option_number (codes "generations") (given options.now)
    //     ≡ Some result.generations }
    // ensures within { AreLimits result }
{
    let slots = options.get_one::<u32>("slots").unwrap();
    let generations = options.get_one::<u32>("generations").unwrap();
    Limits::new(slots, generations).unwrap()
}
