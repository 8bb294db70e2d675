//! The calls of the C boundary, with slices in place of a pointer and a length: once for the proved library and once
//! for the hand-written C.

/// A trait of the calls, each with what C is passed, and the two libraries that have them. Every call is direct.
macro_rules! libraries {
    ($(fn $call:ident($($argument:ident: $kind:ty),*) passes ($($value:expr => $passed:ty),*);)*) => {
        pub trait Library {
            $(fn $call($($argument: $kind),*) -> u64;)*
        }

        libraries!(Ours, "doorbramble_", $(fn $call($($argument: $kind),*) passes ($($value => $passed),*);)*);
        libraries!(Plain, "plain_", $(fn $call($($argument: $kind),*) passes ($($value => $passed),*);)*);
    };
    ($library:ident, $prefix:literal,
     $(fn $call:ident($($argument:ident: $kind:ty),*) passes ($($value:expr => $passed:ty),*);)*) => {
        pub struct $library;

        impl Library for $library {
            $(#[inline(always)]
            fn $call($($argument: $kind),*) -> u64 {
                extern "C" {
                    #[link_name = concat!($prefix, stringify!($call))]
                    fn call($(_: $passed),*) -> u64;
                }
                // C is passed the slices as they are, each a pointer and its length.
                unsafe { call($($value),*) }
            })*
        }
    };
}

type Bytes = *const u8;
type Words = *const u32;
type Index = *const u16;
type Output = *mut u8;
type Store = *mut u32;
type Places = *mut u16;

libraries! {
    fn parse_bgp_message(s: &[u8]) passes (s.as_ptr() => Bytes, s.len() => usize);
    fn parse_bgp_message_strict(s: &[u8]) passes (s.as_ptr() => Bytes, s.len() => usize);
    fn parse_bgp_message_by_edition(s: &[u8], edition: u8) passes (
        s.as_ptr() => Bytes, s.len() => usize, edition => u8
    );
    fn withdrawn_part(body: &[u8]) passes (body.as_ptr() => Bytes, body.len() => usize);
    fn attribute_part(body: &[u8]) passes (body.as_ptr() => Bytes, body.len() => usize);
    fn announced_part(body: &[u8]) passes (body.as_ptr() => Bytes, body.len() => usize);
    fn attribute_at(section: &[u8], place: usize) passes (
        section.as_ptr() => Bytes, section.len() => usize, place => usize
    );
    fn find_attribute(section: &[u8], kind: u8) passes (
        section.as_ptr() => Bytes, section.len() => usize, kind => u8
    );
    fn count_bgp_update_message(body: &[u8], settings: u8) passes (
        body.as_ptr() => Bytes, body.len() => usize, settings => u8
    );
    fn count_update_hosts(body: &[u8], settings: u8) passes (
        body.as_ptr() => Bytes, body.len() => usize, settings => u8
    );
    fn parse_bgp_update_message(body: &[u8], settings: u8, withdrawn: &mut [u32], announced: &mut [u32]) passes (
        body.as_ptr() => Bytes, body.len() => usize, settings => u8,
        withdrawn.as_mut_ptr() => Store, withdrawn.len() => usize,
        announced.as_mut_ptr() => Store, announced.len() => usize
    );
    fn count_nlri_list(s: &[u8], ipv6: u8, settings: u8) passes (
        s.as_ptr() => Bytes, s.len() => usize, ipv6 => u8, settings => u8
    );
    fn parse_nlri_list(s: &[u8], ipv6: u8, settings: u8, store: &mut [u32]) passes (
        s.as_ptr() => Bytes, s.len() => usize, ipv6 => u8, settings => u8,
        store.as_mut_ptr() => Store, store.len() => usize
    );
    fn count_index(s: &[u8], ipv6: u8, add_path: u8) passes (
        s.as_ptr() => Bytes, s.len() => usize, ipv6 => u8, add_path => u8
    );
    fn build_index(s: &[u8], ipv6: u8, add_path: u8, places: &mut [u16]) passes (
        s.as_ptr() => Bytes, s.len() => usize, ipv6 => u8, add_path => u8,
        places.as_mut_ptr() => Places, places.len() => usize
    );
    fn route_at(s: &[u8], index: &[u16], n: usize, ipv6: u8, add_path: u8, row: &mut [u32]) passes (
        s.as_ptr() => Bytes, s.len() => usize, index.as_ptr() => Index, index.len() => usize, n => usize,
        ipv6 => u8, add_path => u8, row.as_mut_ptr() => Store, row.len() => usize
    );
    fn clear_guessed(store: &mut [u32]) passes (store.as_mut_ptr() => Store, store.len() => usize);
    fn count_mp_reach_nlri(value: &[u8], settings: u8) passes (
        value.as_ptr() => Bytes, value.len() => usize, settings => u8
    );
    fn parse_mp_reach_nlri(value: &[u8], settings: u8, store: &mut [u32]) passes (
        value.as_ptr() => Bytes, value.len() => usize, settings => u8,
        store.as_mut_ptr() => Store, store.len() => usize
    );
    fn count_mp_unreach_nlri(value: &[u8], settings: u8) passes (
        value.as_ptr() => Bytes, value.len() => usize, settings => u8
    );
    fn parse_mp_unreach_nlri(value: &[u8], settings: u8, store: &mut [u32]) passes (
        value.as_ptr() => Bytes, value.len() => usize, settings => u8,
        store.as_mut_ptr() => Store, store.len() => usize
    );
    fn count_as_path(value: &[u8], four_bytes: u8) passes (
        value.as_ptr() => Bytes, value.len() => usize, four_bytes => u8
    );
    fn count_as_path_strict(value: &[u8], four_bytes: u8) passes (
        value.as_ptr() => Bytes, value.len() => usize, four_bytes => u8
    );
    fn parse_as_path(value: &[u8], four_bytes: u8, pairs: &mut [u32], numbers: &mut [u32]) passes (
        value.as_ptr() => Bytes, value.len() => usize, four_bytes => u8,
        pairs.as_mut_ptr() => Store, pairs.len() => usize,
        numbers.as_mut_ptr() => Store, numbers.len() => usize
    );
    fn parse_as_path_strict(value: &[u8], four_bytes: u8, pairs: &mut [u32], numbers: &mut [u32]) passes (
        value.as_ptr() => Bytes, value.len() => usize, four_bytes => u8,
        pairs.as_mut_ptr() => Store, pairs.len() => usize,
        numbers.as_mut_ptr() => Store, numbers.len() => usize
    );
    fn parse_aggregator(value: &[u8], four_bytes: u8, words: &mut [u32]) passes (
        value.as_ptr() => Bytes, value.len() => usize, four_bytes => u8,
        words.as_mut_ptr() => Store, words.len() => usize
    );
    fn standing_aggregator(aggregator: &[u8], as4_aggregator: &[u8]) passes (
        aggregator.as_ptr() => Bytes, aggregator.len() => usize,
        as4_aggregator.as_ptr() => Bytes, as4_aggregator.len() => usize
    );
    fn count_merged_as_path(as_path: &[u8], as4_path: &[u8], aggregator: &[u8], as4_aggregator: &[u8]) passes (
        as_path.as_ptr() => Bytes, as_path.len() => usize,
        as4_path.as_ptr() => Bytes, as4_path.len() => usize,
        aggregator.as_ptr() => Bytes, aggregator.len() => usize,
        as4_aggregator.as_ptr() => Bytes, as4_aggregator.len() => usize
    );
    fn merge_as_path(
        as_path: &[u8], as4_path: &[u8], aggregator: &[u8], as4_aggregator: &[u8],
        pairs: &mut [u32], numbers: &mut [u32]
    ) passes (
        as_path.as_ptr() => Bytes, as_path.len() => usize,
        as4_path.as_ptr() => Bytes, as4_path.len() => usize,
        aggregator.as_ptr() => Bytes, aggregator.len() => usize,
        as4_aggregator.as_ptr() => Bytes, as4_aggregator.len() => usize,
        pairs.as_mut_ptr() => Store, pairs.len() => usize,
        numbers.as_mut_ptr() => Store, numbers.len() => usize
    );
    fn encode_nlri_prefixes(rows: &[u32], ipv6: u8, add_path: u8, out: &mut [u8]) passes (
        rows.as_ptr() => Words, rows.len() => usize, ipv6 => u8, add_path => u8,
        out.as_mut_ptr() => Output, out.len() => usize
    );
    fn encode_mp_reach_nlri(next_hop: &[u8], rows: &[u32], add_path: u8, out: &mut [u8]) passes (
        next_hop.as_ptr() => Bytes, next_hop.len() => usize, rows.as_ptr() => Words, rows.len() => usize,
        add_path => u8, out.as_mut_ptr() => Output, out.len() => usize
    );
    fn encode_mp_unreach_nlri(rows: &[u32], add_path: u8, out: &mut [u8]) passes (
        rows.as_ptr() => Words, rows.len() => usize, add_path => u8,
        out.as_mut_ptr() => Output, out.len() => usize
    );
    fn encode_as_path(pairs: &[u32], numbers: &[u32], four_bytes: u8, out: &mut [u8]) passes (
        pairs.as_ptr() => Words, pairs.len() => usize, numbers.as_ptr() => Words, numbers.len() => usize,
        four_bytes => u8, out.as_mut_ptr() => Output, out.len() => usize
    );
    fn encode_as_path_strict(pairs: &[u32], numbers: &[u32], four_bytes: u8, out: &mut [u8]) passes (
        pairs.as_ptr() => Words, pairs.len() => usize, numbers.as_ptr() => Words, numbers.len() => usize,
        four_bytes => u8, out.as_mut_ptr() => Output, out.len() => usize
    );
    fn encode_aggregator(asn: u32, identifier: u32, four_bytes: u8, out: &mut [u8]) passes (
        asn => u32, identifier => u32, four_bytes => u8, out.as_mut_ptr() => Output, out.len() => usize
    );
    fn encode_bgp_message(kind: u8, body: &[u8], out: &mut [u8]) passes (
        kind => u8, body.as_ptr() => Bytes, body.len() => usize, out.as_mut_ptr() => Output, out.len() => usize
    );
    fn encode_bgp_update_message(
        withdrawn: &[u32], attributes: &[u8], announced: &[u32], add_path: u8, out: &mut [u8]
    ) passes (
        withdrawn.as_ptr() => Words, withdrawn.len() => usize,
        attributes.as_ptr() => Bytes, attributes.len() => usize,
        announced.as_ptr() => Words, announced.len() => usize,
        add_path => u8, out.as_mut_ptr() => Output, out.len() => usize
    );
}
