//! Where the crate and document 01 part on purpose, each with its smallest input, as docs/DIFFERENCES.md lists them.

use super::mp_nlri::of_ipv6;
use super::paths::segment_type;
use super::private::{Inside, PrivateCalls};
use super::warnings;
use crate::error::{BgpValidationWarning, EncodingError, ParserError};
use crate::models::*;
use crate::parser::bgp::attributes::{parse_attributes, parse_nlri};
use crate::parser::bgp::messages::{parse_bgp_message, parse_bgp_update_message};
use crate::parser::utils::{encode_nlri_prefixes, parse_nlri_list, ReadUtils};
use bytes::{Buf, Bytes, BytesMut};
use std::collections::HashSet;
use std::net::IpAddr;
use std::str::FromStr;
use std::sync::Once;

static RECORDER: Once = Once::new();

/// Every fact with its name. Each is a function and not a test, since a folder of the whole crate has tests of its own.
pub const ALL: &[(&str, fn())] = &[
    ("warnings_of_cut_and_trailing_messages", warnings_of_cut_and_trailing_messages),
    ("no_length_fails_the_check_of_the_body", no_length_fails_the_check_of_the_body),
    ("a_refused_message_is_consumed_in_part", a_refused_message_is_consumed_in_part),
    ("a_refused_single_route_is_not_consumed", a_refused_single_route_is_not_consumed),
    ("lists_and_values_have_no_greatest_size", lists_and_values_have_no_greatest_size),
    ("a_refused_path_leaves_its_output_half_written", a_refused_path_leaves_its_output_half_written),
    ("rows_of_both_forms_and_families_are_written_together", rows_of_both_forms_and_families_are_written_together),
    ("octets_past_the_length_are_dropped_when_written", octets_past_the_length_are_dropped_when_written),
    ("host_bits_are_kept_without_a_warning", host_bits_are_kept_without_a_warning),
    ("host_bits_are_written_back", host_bits_are_written_back),
    ("routes_that_differ_in_host_bits_alone_are_not_equal", routes_that_differ_in_host_bits_alone_are_not_equal),
    ("an_open_over_4096_is_written_and_then_refused", an_open_over_4096_is_written_and_then_refused),
    ("an_update_body_has_no_limit_of_its_own", an_update_body_has_no_limit_of_its_own),
    ("an_unfinished_long_attribute_refuses_the_update", an_unfinished_long_attribute_refuses_the_update),
    ("a_keepalive_with_a_body_is_accepted", a_keepalive_with_a_body_is_accepted),
    (
        "bodies_shorter_than_their_least_are_refused_after_the_header",
        bodies_shorter_than_their_least_are_refused_after_the_header,
    ),
    ("an_empty_segment_is_kept", an_empty_segment_is_kept),
    ("an_empty_segment_is_written_back", an_empty_segment_is_written_back),
    ("segments_are_appended_without_merging", segments_are_appended_without_merging),
    (
        "an_as_number_remembers_its_width_but_is_compared_by_value",
        an_as_number_remembers_its_width_but_is_compared_by_value,
    ),
    (
        "an_attribute_that_the_crate_refuses_does_not_refuse_the_update",
        an_attribute_that_the_crate_refuses_does_not_refuse_the_update,
    ),
    ("every_repeat_of_an_attribute_is_kept_with_a_warning", every_repeat_of_an_attribute_is_kept_with_a_warning),
    ("a_cut_last_attribute_is_dropped_with_a_logged_warning", a_cut_last_attribute_is_dropped_with_a_logged_warning),
    ("one_or_two_last_bytes_of_a_section_are_ignored", one_or_two_last_bytes_of_a_section_are_ignored),
    (
        "three_last_bytes_of_a_long_attribute_refuse_the_section",
        three_last_bytes_of_a_long_attribute_refuse_the_section,
    ),
    (
        "an_aggregator_with_a_16_byte_address_is_written_and_then_refused",
        an_aggregator_with_a_16_byte_address_is_written_and_then_refused,
    ),
    ("of_two_aggregators_the_last_is_handed_back", of_two_aggregators_the_last_is_handed_back),
    ("an_as4_aggregator_alone_is_handed_back", an_as4_aggregator_alone_is_handed_back),
    ("a_refused_aggregator_is_passed_over", a_refused_aggregator_is_passed_over),
    ("either_aggregator_may_have_the_length_of_the_other", either_aggregator_may_have_the_length_of_the_other),
    ("the_aggregators_do_not_ignore_as4_path", the_aggregators_do_not_ignore_as4_path),
    ("sequences_of_a_merged_path_are_joined", sequences_of_a_merged_path_are_joined),
    ("a_joined_sequence_may_be_too_long_to_write", a_joined_sequence_may_be_too_long_to_write),
    ("an_empty_sequence_beside_another_segment_is_dropped", an_empty_sequence_beside_another_segment_is_dropped),
    ("confederation_segments_of_as4_path_are_kept", confederation_segments_of_as4_path_are_kept),
    ("confederation_segments_after_the_leading_ones_are_left", confederation_segments_after_the_leading_ones_are_left),
    ("an_empty_as4_path_is_built_upon", an_empty_as4_path_is_built_upon),
    ("a_refused_path_is_passed_over", a_refused_path_is_passed_over),
    ("a_set_counts_one_in_a_merge", a_set_counts_one_in_a_merge),
    ("the_update_reader_reads_an_announcement_so", the_update_reader_reads_an_announcement_so),
    ("other_families_are_taken", other_families_are_taken),
    ("a_family_is_judged_before_the_third_byte", a_family_is_judged_before_the_third_byte),
    ("next_hops_of_six_lengths_are_taken", next_hops_of_six_lengths_are_taken),
    ("a_next_hop_is_looked_for_before_its_length_is_judged", a_next_hop_is_looked_for_before_its_length_is_judged),
    ("addresses_of_a_next_hop_are_not_judged", addresses_of_a_next_hop_are_not_judged),
    ("a_reserved_byte_is_logged_and_lost", a_reserved_byte_is_logged_and_lost),
    ("a_list_of_one_byte_is_a_list_in_an_announcement", a_list_of_one_byte_is_a_list_in_an_announcement),
    ("ids_are_guessed_in_announcements_and_withdrawals", ids_are_guessed_in_announcements_and_withdrawals),
    ("announcements_have_no_greatest_size", announcements_have_no_greatest_size),
    ("a_refused_announcement_is_kept_raw", a_refused_announcement_is_kept_raw),
    (
        "an_announcement_without_a_next_hop_is_written_without_its_length",
        an_announcement_without_a_next_hop_is_written_without_its_length,
    ),
    ("a_withdrawal_is_written_with_its_next_hop", a_withdrawal_is_written_with_its_next_hop),
    ("next_hops_of_every_kind_are_written", next_hops_of_every_kind_are_written),
    ("ids_and_families_of_routes_are_written_as_they_are", ids_and_families_of_routes_are_written_as_they_are),
    ("a_written_announcement_has_the_limit_of_its_attribute", a_written_announcement_has_the_limit_of_its_attribute),
];

/// A message with an all-FF marker.
fn message(claimed: u16, kind: u8, body: &[u8]) -> Bytes {
    Bytes::from([&[0xFF; 16], &claimed.to_be_bytes()[..], &[kind], body].concat())
}

fn read_message(data: &mut Bytes) -> (Result<BgpMessage, ParserError>, Vec<String>) {
    RECORDER.call_once(warnings::record_from_now_on);
    warnings::during(|| parse_bgp_message(data, false, &AsnLength::Bits32))
}

/// The attributes of a section, and what was logged.
fn read_section(section: &[u8]) -> (Result<Attributes, ParserError>, Vec<String>) {
    RECORDER.call_once(warnings::record_from_now_on);
    let bytes = Bytes::copy_from_slice(section);
    warnings::during(|| parse_attributes(bytes, &AsnLength::Bits16, false, None, None, None))
}

/// One test, so that no other call's warnings come between.
fn warnings_of_cut_and_trailing_messages() {
    let (read, warned) = read_message(&mut message(20, 4, &[]));
    assert!(read.is_ok() && warned.is_empty(), "a cut message gives no warning");
    let (read, warned) = read_message(&mut message(19, 4, &[0]));
    assert!(read.is_ok());
    assert_eq!(warned.len(), 1, "a trailing byte does");
}

/// With KEEPALIVEs, whose body is not read: nothing else could refuse one that claims up to 4,096.
fn no_length_fails_the_check_of_the_body() {
    for claimed in 19..=4_096u16 {
        let body = usize::from(claimed) - 19;
        for given in [0, 1, body.saturating_sub(1), body, body + 1, 4_078] {
            let mut data = message(claimed, 4, &vec![0; given]);
            assert!(parse_bgp_message(&mut data, false, &AsnLength::Bits32).is_ok());
            assert_eq!(data.remaining(), given.saturating_sub(body), "the smaller of both is taken");
        }
    }
}

fn a_refused_message_is_consumed_in_part() {
    for (claimed, kind, body, left) in [(18, 4, vec![], 1), (19, 9, vec![], 0), (23, 2, vec![0, 0, 0, 1], 0)] {
        let mut data = message(claimed, kind, &body);
        assert!(parse_bgp_message(&mut data, false, &AsnLength::Bits32).is_err());
        assert_eq!(data.remaining(), left);
    }
}

fn a_refused_single_route_is_not_consumed() {
    let mut data = Bytes::from_static(&[8]);
    assert!(data.read_nlri_prefix(&Afi::Ipv4, false).is_err());
    assert_eq!(data.remaining(), 1);
}

fn lists_and_values_have_no_greatest_size() {
    let list = parse_nlri_list(Bytes::from([[8u8, 10]; 32_768].concat()), false, &Afi::Ipv4);
    assert_eq!(list.unwrap().len(), 32_768);
    let path =
        crate::parser::bgp::attributes::parse_as_path(Bytes::from([[2u8, 0]; 32_768].concat()), &AsnLength::Bits16);
    assert_eq!(path.unwrap().segments.len(), 32_768);
    assert_eq!(read_section(&[0; 65_538]).0.unwrap().inner.len(), 21_846);
    let body = [vec![0; 5], [8u8, 10].repeat(32_756)].concat();
    assert_eq!(body.len(), 65_517);
    assert!(parse_bgp_update_message(Bytes::from(body), false, &AsnLength::Bits32).is_ok());
}

fn a_refused_path_leaves_its_output_half_written() {
    let mut path = AsPath::new();
    path.append_segment(AsPathSegment::sequence([65_536]));
    let attribute = Attribute { value: AttributeValue::AsPath(path), flag: AttrFlags::TRANSITIVE };
    let mut output = BytesMut::new();
    assert!(attribute.encode_to(AsnLength::Bits16, &mut output).is_err());
    assert_eq!(output[..], [0x40, 2, 0, 2, 1], "flags, type, no length yet; segment type and count");
}

fn rows_of_both_forms_and_families_are_written_together() {
    let plain = NetworkPrefix::from_str("10.0.0.0/8").unwrap();
    let mut tagged = NetworkPrefix::from_str("11.0.0.0/8").unwrap();
    tagged.path_id = Some(7);
    let ipv6 = NetworkPrefix::from_str("2001::/16").unwrap();
    let written = encode_nlri_prefixes(&[plain, tagged, ipv6]);
    assert_eq!(written[..], [8, 10, 0, 0, 0, 7, 8, 11, 16, 0x20, 1]);
}

fn octets_past_the_length_are_dropped_when_written() {
    let prefix = NetworkPrefix::from_str("10.1.2.3/8").unwrap();
    assert_eq!(prefix.encode()[..], [8, 10]);
    let host_bits = NetworkPrefix::from_str("10.255.0.0/9").unwrap();
    assert_eq!(host_bits.encode()[..], [9, 10, 255], "but bits in the last octet are kept");
}

/// In the prefix's address, in either section. What is logged and what the UPDATE is warned of are those of 10.128.0.0/9.
fn host_bits_are_kept_without_a_warning() {
    RECORDER.call_once(warnings::record_from_now_on);
    let read = |octet| {
        let body = Bytes::from(vec![0, 3, 9, 10, octet, 0, 0, 9, 10, octet]);
        let (update, warned) = warnings::during(|| parse_bgp_update_message(body, false, &AsnLength::Bits32));
        (update.unwrap(), warned)
    };
    let ((sent, logged), (meant, logged_of_meant)) = (read(255), read(128));
    for route in [sent.withdrawn_prefixes[0], sent.announced_prefixes[0]] {
        assert_eq!([route.prefix.addr(), route.prefix.network()], [[10, 255, 0, 0], [10, 128, 0, 0]].map(IpAddr::from));
    }
    assert_eq!(sent.attributes.validation_warnings(), meant.attributes.validation_warnings());
    assert_eq!(logged, logged_of_meant);
}

/// In both families, and with an id.
fn host_bits_are_written_back() {
    for (afi, add_path, bytes) in [
        (Afi::Ipv4, false, &[9, 10, 255][..]),
        (Afi::Ipv4, true, &[0, 0, 0, 7, 9, 10, 255]),
        (Afi::Ipv6, false, &[33, 0x20, 1, 0x0D, 0xB8, 0x40]),
    ] {
        let prefixes = parse_nlri_list(Bytes::from(bytes), add_path, &afi).unwrap();
        assert_eq!(encode_nlri_prefixes(&prefixes)[..], *bytes);
    }
}

/// Nor are they one in a set, and each is shown as it came; ipnet's own call for the network makes one of them.
fn routes_that_differ_in_host_bits_alone_are_not_equal() {
    let list = parse_nlri_list(Bytes::from_static(&[9, 10, 255, 9, 10, 128]), false, &Afi::Ipv4).unwrap();
    let (sent, meant) = (list[0], list[1]);
    assert_ne!(sent, meant);
    assert_eq!(HashSet::from([sent, meant]).len(), 2);
    assert_eq!([sent.to_string(), meant.to_string()], ["10.255.0.0/9", "10.128.0.0/9"]);
    assert_eq!(sent.prefix.trunc(), meant.prefix);
}

fn an_open_over_4096_is_written_and_then_refused() {
    let parameter = OptParam { param_type: 1, param_value: ParamValue::Raw(vec![0; 4_062]) };
    let open = BgpOpenMessage {
        version: 4,
        asn: Asn::new_16bit(1),
        hold_time: 0,
        bgp_identifier: std::net::Ipv4Addr::new(0, 0, 0, 1),
        extended_length: false,
        opt_params: vec![parameter],
    };
    let mut written = BgpMessage::Open(open).encode(AsnLength::Bits32).unwrap();
    assert_eq!(written.len(), 4_097);
    assert!(parse_bgp_message(&mut written, false, &AsnLength::Bits32).is_err());
}

fn an_update_body_has_no_limit_of_its_own() {
    let mut announced_prefixes = vec![NetworkPrefix::from_str("10.0.0.0/8").unwrap(); 32_756];
    announced_prefixes.push(NetworkPrefix::from_str("0.0.0.0/0").unwrap());
    let update = BgpUpdateMessage { announced_prefixes, ..Default::default() };
    assert_eq!(update.encode(AsnLength::Bits32).unwrap().len(), 65_517);
    let error = BgpMessage::Update(update).encode(AsnLength::Bits32).unwrap_err();
    assert!(matches!(error, EncodingError::ValueTooLarge { field: "BGP message total length", .. }));
}

fn an_unfinished_long_attribute_refuses_the_update() {
    let body = Bytes::from_static(&[0, 0, 0, 3, 0x10, 0, 0]);
    assert!(parse_bgp_update_message(body, false, &AsnLength::Bits32).is_err());
    for accepted in [&[0u8, 0, 0, 2, 0x10, 0][..], &[0, 0, 0, 3, 0, 0, 1], &[0, 0, 0, 4, 0x10, 0, 0, 1]] {
        assert!(parse_bgp_update_message(Bytes::from(accepted), false, &AsnLength::Bits32).is_ok());
    }
}

fn a_keepalive_with_a_body_is_accepted() {
    let read = parse_bgp_message(&mut message(20, 4, &[0]), false, &AsnLength::Bits32);
    assert_eq!(read.unwrap(), BgpMessage::KeepAlive);
}

fn bodies_shorter_than_their_least_are_refused_after_the_header() {
    for (kind, least) in [(1, 10), (2, 4), (3, 2), (5, 4)] {
        for length in [least - 1, least] {
            let mut data = message(19 + length as u16, kind, &vec![0; length]);
            let read = parse_bgp_message(&mut data, false, &AsnLength::Bits32);
            assert_eq!(read.is_ok(), length == least);
            assert_eq!(data.remaining(), 0, "the body was taken all the same");
        }
    }
}

fn an_empty_segment_is_kept() {
    let path = crate::parser::bgp::attributes::parse_as_path(Bytes::from_static(&[2, 0]), &AsnLength::Bits16).unwrap();
    assert_eq!((path.segments.len(), path.segments[0].len()), (1, 0));
}

/// Of every type, also between others.
fn an_empty_segment_is_written_back() {
    for kind in 1..=4 {
        for value in [vec![kind, 0], vec![2, 1, 0, 7, kind, 0, 2, 1, 0, 8]] {
            let path = Inside::parse_as_path(Bytes::from(value.clone()), &AsnLength::Bits16).unwrap();
            let mut output = BytesMut::new();
            Inside::encode_as_path(&path, AsnLength::Bits16, &mut output).unwrap();
            assert_eq!(output[..], value);
        }
    }
}

fn segments_are_appended_without_merging() {
    let value = Bytes::from_static(&[2, 1, 0, 1, 2, 1, 0, 1]);
    let path = crate::parser::bgp::attributes::parse_as_path(value, &AsnLength::Bits16).unwrap();
    assert_eq!(path.segments.len(), 2);
}

fn an_as_number_remembers_its_width_but_is_compared_by_value() {
    assert_eq!(Asn::new_16bit(1), Asn::new_32bit(1));
    assert_ne!(Asn::new_16bit(1).is_four_byte(), Asn::new_32bit(1).is_four_byte());
}

fn an_attribute_that_the_crate_refuses_does_not_refuse_the_update() {
    let attributes = read_section(&[0x40, 2, 1, 2]).0.unwrap();
    assert!(attributes.as_path().is_none() && attributes.has_validation_warnings());
}

/// MP_REACH_NLRI and MP_UNREACH_NLRI too; the crate's search gives the first.
fn every_repeat_of_an_attribute_is_kept_with_a_warning() {
    for attr_type in [AttrType::ORIGIN, AttrType::MP_REACHABLE_NLRI, AttrType::MP_UNREACHABLE_NLRI] {
        let kind = u8::from(attr_type);
        let attributes = read_section(&[0x80, kind, 0, 0xC0, kind, 0]).0.unwrap();
        assert_eq!(attributes.inner.len(), 2);
        let repeat = BgpValidationWarning::DuplicateAttribute { attr_type };
        assert!(attributes.validation_warnings().contains(&repeat));
        assert_eq!(attributes.get_attr(attr_type).unwrap().flag.bits(), 0x80);
    }
}

/// What is kept does not tell, and `has_attr` says that it is there.
fn a_cut_last_attribute_is_dropped_with_a_logged_warning() {
    let (attributes, warned) = read_section(&[0x40, 1, 1]);
    let attributes = attributes.unwrap();
    assert!(attributes.inner.is_empty() && !attributes.has_validation_warnings());
    assert_eq!(warned.len(), 1);
    assert!(attributes.has_attr(AttrType::ORIGIN) && attributes.get_attr(AttrType::ORIGIN).is_none());
    let second = read_section(&[0x80, 14, 0, 0x80, 14, 1]).0.unwrap();
    let repeat = BgpValidationWarning::DuplicateAttribute { attr_type: AttrType::MP_REACHABLE_NLRI };
    assert_eq!(second.inner.len(), 1);
    assert!(second.validation_warnings().contains(&repeat), "a cut one is a repeat too");
}

fn one_or_two_last_bytes_of_a_section_are_ignored() {
    for section in [&[0x40][..], &[0x40, 1], &[0x10, 1]] {
        let (attributes, warned) = read_section(section);
        let attributes = attributes.unwrap();
        assert!(attributes.inner.is_empty() && !attributes.has_validation_warnings() && warned.is_empty());
    }
}

fn three_last_bytes_of_a_long_attribute_refuse_the_section() {
    for section in [&[0x10, 0, 0][..], &[0x40, 1, 1, 0, 0x10, 0, 0]] {
        assert!(read_section(section).0.is_err());
    }
}

fn an_aggregator_with_a_16_byte_address_is_written_and_then_refused() {
    let address: IpAddr = "::1".parse().expect("an address");
    for (width, length) in [(AsnLength::Bits16, 18), (AsnLength::Bits32, 20)] {
        let written = Inside::encode_aggregator(&Asn::new_32bit(1), &address, width).expect("a small number");
        assert_eq!(written.len(), length);
        assert!(Inside::parse_aggregator(written, &width).is_err());
    }
}

/// An AGGREGATOR (7) or AS4_AGGREGATOR (18) of the address 0.0.0.0, by the bytes of its number.
fn aggregator(kind: u8, number: &[u8]) -> Vec<u8> {
    [&[0xC0, kind, number.len() as u8 + 4], number, &[0; 4]].concat()
}

/// The AS number of the AGGREGATOR that the crate hands back.
fn standing(section: &[u8]) -> Option<u32> {
    read_section(section).0.unwrap().aggregator().map(|(asn, _)| asn.to_u32())
}

/// The order in the section decides, and not the number: 23456 (`5B A0`) or any other.
fn of_two_aggregators_the_last_is_handed_back() {
    for old in [[0x5B, 0xA0], [0, 1]] {
        let (old, new) = (aggregator(7, &old), aggregator(18, &[0, 1, 0x11, 0x70]));
        assert_eq!(standing(&[&old[..], &new].concat()), Some(70_000));
        assert_ne!(standing(&[&new[..], &old].concat()), Some(70_000));
    }
}

fn an_as4_aggregator_alone_is_handed_back() {
    assert_eq!(standing(&aggregator(18, &[0; 4])), Some(0));
}

/// An empty one too, which is no absent one.
fn a_refused_aggregator_is_passed_over() {
    for (refused, other) in [(7, aggregator(18, &[0; 4])), (18, aggregator(7, &[0; 2]))] {
        for size in [0, 1, 7, 9] {
            let value = [&[0xC0, refused, size][..], &[0; 9][..usize::from(size)]].concat();
            let attributes = read_section(&[value, other.clone()].concat()).0.unwrap();
            assert!(attributes.has_validation_warnings() && attributes.aggregator().is_some());
        }
    }
}

fn either_aggregator_may_have_the_length_of_the_other() {
    for section in [aggregator(7, &[0; 4]), aggregator(18, &[0; 2])] {
        let (attributes, warned) = read_section(&section);
        assert!(attributes.unwrap().aggregator().is_some());
        assert_eq!(warned.len(), 1, "a logged warning");
    }
}

/// A path's segments: types and numbers.
type Segments = Vec<(u32, Vec<u32>)>;

/// The path that the crate makes of a section with an AS_PATH, an AS4_PATH and more.
fn effective(old: &[u8], new: &[u8], more: &[u8]) -> Segments {
    let attribute = |kind, value: &[u8]| [&[0xC0, kind, value.len() as u8], value].concat();
    let section = [&attribute(2, old)[..], &attribute(17, new), more].concat();
    let path = read_section(&section).0.unwrap().effective_as_path().expect("a path");
    let numbers = |segment: &AsPathSegment| segment.iter().map(|asn| asn.to_u32()).collect();
    path.segments.iter().map(|segment| (segment_type(segment), numbers(segment))).collect()
}

fn merged(old: &[u8], new: &[u8]) -> Segments {
    effective(old, new, &[])
}

fn the_aggregators_do_not_ignore_as4_path() {
    let first_stands = [aggregator(7, &[0, 1]), aggregator(18, &[0; 4])].concat();
    assert_eq!(effective(&[], &[2, 0], &first_stands), [(2, vec![])]);
    assert_eq!(effective(&[2, 1, 0, 1], &[2, 1, 0, 0, 0, 7], &first_stands), [(2, vec![7])]);
}

/// Where a path is built, also those of AS4_PATH or of AS_PATH alone, and confederation sequences.
fn sequences_of_a_merged_path_are_joined() {
    assert_eq!(merged(&[2, 2, 0, 1, 0, 2], &[2, 1, 0, 0, 0, 7]), [(2, vec![1, 7])]);
    assert_eq!(merged(&[2, 2, 0, 7, 0, 7], &[2, 1, 0, 0, 0, 7]), [(2, vec![7, 7])], "a number may come again");
    let confederations = [3, 1, 0, 5, 3, 1, 0, 6, 1, 0, 1, 0];
    assert_eq!(merged(&confederations, &[1, 0]), [(3, vec![5, 6]), (1, vec![]), (1, vec![])]);
    assert_eq!(merged(&[2, 1, 0, 1, 2, 0], &[1, 0, 1, 0]).len(), 2, "AS_PATH alone, as it counts fewer");
}

fn a_joined_sequence_may_be_too_long_to_write() {
    let sequence = |count: usize| AsPathSegment::sequence(vec![1; count]);
    let old = AsPath::from_segments(vec![sequence(255), sequence(1)]);
    let path = AsPath::merge_aspath_as4path(&old, &AsPath::from_segments(vec![sequence(1)]));
    assert_eq!((path.len(), path.segments[0].len()), (1, 256));
    let attribute = Attribute { value: AttributeValue::AsPath(path), flag: AttrFlags::TRANSITIVE };
    assert!(attribute.encode(AsnLength::Bits32).is_err());
}

fn an_empty_sequence_beside_another_segment_is_dropped() {
    assert_eq!(merged(&[], &[2, 0, 2, 0]), [(2, vec![])]);
    assert_eq!(merged(&[1, 0], &[2, 0, 1, 0]), [(1, vec![])]);
    assert_eq!(merged(&[1, 0], &[1, 0, 2, 0]), [(1, vec![])]);
    assert_eq!(merged(&[], &[2, 0]), [(2, vec![])], "but not one alone");
}

fn confederation_segments_of_as4_path_are_kept() {
    assert_eq!(merged(&[1, 0], &[1, 0, 4, 0]), [(1, vec![]), (4, vec![])]);
    assert_eq!(merged(&[], &[3, 0]), [(3, vec![])]);
}

/// Also where there is nothing to make up, so that none is leading.
fn confederation_segments_after_the_leading_ones_are_left() {
    assert_eq!(merged(&[3, 0], &[2, 0]), [(2, vec![])]);
    assert_eq!(merged(&[1, 0, 3, 0, 1, 0], &[1, 0]), [(1, vec![]), (1, vec![])]);
    assert_eq!(merged(&[3, 1, 0, 5, 1, 0, 1, 0], &[1, 0]).len(), 3, "on the way it is taken");
}

/// Where the attribute is there: what stands after the last number of AS_PATH is lost, and sequences are joined. Where it is not, AS_PATH
/// stands as it is.
fn an_empty_as4_path_is_built_upon() {
    assert_eq!(merged(&[2, 0], &[]), []);
    assert_eq!(merged(&[1, 0, 4, 0], &[]), [(1, vec![])]);
    let alone = read_section(&[0x40, 2, 4, 2, 0, 2, 0]).0.unwrap();
    assert_eq!(alone.effective_as_path().unwrap().segments.len(), 2);
}

/// A malformed AS4_PATH leaves AS_PATH; a malformed AS_PATH, or one that is absent, leaves AS4_PATH.
fn a_refused_path_is_passed_over() {
    assert_eq!(merged(&[1, 0], &[2]), [(1, vec![])]);
    assert_eq!(merged(&[2], &[1, 0]), [(1, vec![])]);
    let absent = read_section(&[0xC0, 17, 2, 1, 0]).0.unwrap();
    assert_eq!(absent.effective_as_path().unwrap().segments.len(), 1);
}

/// An empty one too.
fn a_set_counts_one_in_a_merge() {
    assert_eq!(merged(&[1, 0], &[2, 2, 0, 0, 0, 7, 0, 0, 0, 8]), [(1, vec![])], "one is fewer than two");
    assert_eq!(merged(&[1, 2, 0, 1, 0, 2], &[2, 1, 0, 0, 0, 7]), [(2, vec![7])], "one is as many as one");
    assert_eq!(merged(&[2, 1, 0, 1], &[1, 0]), [(1, vec![])]);
}

/// The value of an announcement (MP_REACH_NLRI) or a withdrawal (MP_UNREACH_NLRI) as the UPDATE reader asks for it, and what is logged.
fn read_nlri(value: &[u8], is_reach: bool) -> (Result<AttributeValue, ParserError>, Vec<String>) {
    RECORDER.call_once(warnings::record_from_now_on);
    let bytes = Bytes::copy_from_slice(value);
    warnings::during(|| parse_nlri(bytes, &None, &None, &None, is_reach, false))
}

fn taken(value: &[u8], is_reach: bool) -> Nlri {
    match read_nlri(value, is_reach).0.unwrap() {
        AttributeValue::MpReachNlri(nlri) | AttributeValue::MpUnreachNlri(nlri) => nlri,
        other => panic!("a value of another attribute: {other:?}"),
    }
}

/// Whether a value is refused as cut.
fn is_cut(value: &[u8], is_reach: bool) -> bool {
    matches!(read_nlri(value, is_reach).0, Err(ParserError::TruncatedMsg(_)))
}

/// Whether a value is refused with a text that begins so.
fn is_refused(value: &[u8], is_reach: bool, beginning: &str) -> bool {
    matches!(read_nlri(value, is_reach).0, Err(ParserError::ParseError(text)) if text.starts_with(beginning))
}

/// An announcement of no routes of IPv6 unicast: a next hop of zeros, and the reserved byte.
fn announcement(next_hop: u8, reserved: u8) -> Vec<u8> {
    [&[0, 2, 1, next_hop][..], &vec![0; next_hop.into()], &[reserved]].concat()
}

/// What is written of an announcement or a withdrawal.
fn written(nlri: &Nlri, is_reach: bool, add_path: bool) -> Vec<u8> {
    let mut output = BytesMut::new();
    Inside::encode_nlri(nlri, is_reach, add_path, &mut output).unwrap();
    output.to_vec()
}

fn the_update_reader_reads_an_announcement_so() {
    for (kind, is_reach, value) in [(14, true, announcement(16, 0)), (15, false, vec![0, 2, 1, 8, 0x20])] {
        let section = [&[0x80, kind, value.len() as u8][..], &value].concat();
        let attributes = read_section(&section).0.unwrap();
        assert_eq!(attributes.inner[0].value, read_nlri(&value, is_reach).0.unwrap());
    }
}

/// Of those that this build knows; a link-state family is read as a list too, with other subfamilies than its own. Another address family is
/// refused.
fn other_families_are_taken() {
    for families in [[0, 1, 1], [0, 1, 2], [0, 2, 2], [0, 2, 128], [0, 2, 133], [0x40, 4, 1]] {
        assert!(taken(&families, false).prefixes.is_empty());
        assert!(taken(&[&families[..], &[0, 0]].concat(), true).prefixes.is_empty());
    }
    assert_eq!(taken(&[0, 1, 1, 8, 10], false).prefixes[0].to_string(), "10.0.0.0/8");
    for families in [[0, 0, 1], [0, 3, 1], [2, 0, 1], [1, 2, 1]] {
        assert!(is_refused(&families, false, "Unknown AFI type"));
    }
}

fn a_family_is_judged_before_the_third_byte() {
    for is_reach in [false, true] {
        assert!(is_refused(&[0, 0], is_reach, "Unknown AFI type"));
        assert!(is_cut(&[0, 1], is_reach) && is_cut(&[0], is_reach));
    }
}

const TAKEN_NEXT_HOPS: [u8; 6] = [0, 4, 16, 24, 32, 48];

/// Of IPv6 unicast; every other length is refused.
fn next_hops_of_six_lengths_are_taken() {
    for length in 0..=255 {
        let value = announcement(length, 0);
        if TAKEN_NEXT_HOPS.contains(&length) {
            assert_eq!(taken(&value, true).next_hop.is_some(), length > 0);
        } else {
            assert!(is_refused(&value, true, "Invalid next hop length"));
        }
    }
}

/// A length that is refused is named before the reserved byte is looked for.
fn a_next_hop_is_looked_for_before_its_length_is_judged() {
    for length in 1..=255 {
        let value = announcement(length, 0);
        let without_reserved = &value[..value.len() - 1];
        assert!(is_cut(&value[..4], true) && is_cut(&value[..value.len() - 2], true));
        assert_eq!(is_cut(without_reserved, true), TAKEN_NEXT_HOPS.contains(&length));
        assert_ne!(is_cut(without_reserved, true), is_refused(without_reserved, true, "Invalid next hop length"));
    }
}

/// Two addresses of zeros are a global and a link-local one.
fn addresses_of_a_next_hop_are_not_judged() {
    let zero = std::net::Ipv6Addr::UNSPECIFIED;
    assert_eq!(taken(&announcement(32, 0), true).next_hop, Some(NextHopAddress::Ipv6LinkLocal(zero, zero)));
    assert_eq!(taken(&announcement(16, 0), true).next_hop, Some(NextHopAddress::Ipv6(zero)));
}

/// In the log alone: the attribute has no warning, and is written with a 0.
fn a_reserved_byte_is_logged_and_lost() {
    for reserved in 0..=255 {
        let value = announcement(16, reserved);
        let warned = read_nlri(&value, true).1;
        assert_eq!(warned.len(), usize::from(reserved != 0));
        assert!(warned.iter().all(|text| text.starts_with("NLRI reserved byte not 0")));
        assert_eq!(written(&taken(&value, true), true, false), announcement(16, 0));
        let warnings =
            |value| read_section(&[vec![0x80, 14, 21], value].concat()).0.unwrap().validation_warnings().to_vec();
        assert_eq!(warnings(value), warnings(announcement(16, 0)));
    }
}

fn a_list_of_one_byte_is_a_list_in_an_announcement() {
    for byte in 1..=128 {
        assert!(is_cut(&[0, 2, 1, byte], false) && is_cut(&[announcement(16, 0), vec![byte]].concat(), true));
    }
    assert_eq!(taken(&[0, 2, 1, 0], false).prefixes.len(), 1);
    assert!(is_refused(&[0, 2, 1, 129], false, "Invalid prefix length"));
}

fn ids_are_guessed_in_announcements_and_withdrawals() {
    let list = vec![0, 0, 0, 7, 8, 0x20];
    for (is_reach, head) in [(true, announcement(16, 0)), (false, vec![0, 2, 1])] {
        assert_eq!(taken(&[head, list.clone()].concat(), is_reach).prefixes[0].path_id, Some(7));
    }
}

fn announcements_have_no_greatest_size() {
    let list = [8, 0x20].repeat(32_768);
    assert_eq!(taken(&[announcement(16, 0), list.clone()].concat(), true).prefixes.len(), 32_768);
    assert_eq!(taken(&[vec![0, 2, 1], list].concat(), false).prefixes.len(), 32_768);
}

/// With a warning, and the UPDATE's own routes stand.
fn a_refused_announcement_is_kept_raw() {
    for (kind, value) in [(14, vec![0, 2, 1]), (15, vec![0, 2])] {
        let attribute = [&[0x80, kind, value.len() as u8][..], &value].concat();
        let attributes = read_section(&attribute).0.unwrap();
        assert!(matches!(&attributes.inner[0].value, AttributeValue::Raw(raw) if raw.bytes == value));
        assert!(attributes.has_validation_warnings());
        let body = [&[0, 0, 0, attribute.len() as u8][..], &attribute, &[8, 10]].concat();
        let update = parse_bgp_update_message(Bytes::from(body), false, &AsnLength::Bits32).unwrap();
        assert_eq!(update.announced_prefixes.len(), 1);
    }
}

/// One that was read with a length of 0 too: what is written is a byte shorter, and refused when it is read again.
fn an_announcement_without_a_next_hop_is_written_without_its_length() {
    let nlri = taken(&announcement(0, 0), true);
    let value = written(&nlri, true, false);
    assert_eq!(value, [0, 2, 1, 0]);
    assert!(is_cut(&value, true));
}

/// With its length before it and a logged warning, so that it is read as routes.
fn a_withdrawal_is_written_with_its_next_hop() {
    let nlri = taken(&announcement(16, 0), true);
    RECORDER.call_once(warnings::record_from_now_on);
    let (value, warned) = warnings::during(|| written(&nlri, false, false));
    assert_eq!(value, announcement(16, 0)[..20]);
    assert_eq!(warned.len(), 1);
    assert!(!taken(&value, false).prefixes.is_empty());
}

/// As they are read; the family is that of the routes, whatever the next hop is.
fn next_hops_of_every_kind_are_written() {
    for length in TAKEN_NEXT_HOPS.into_iter().filter(|length| *length > 0) {
        let bytes: Vec<u8> = (1..=length).collect();
        let value = [&[0, 2, 1, length][..], &bytes, &[0]].concat();
        assert_eq!(written(&taken(&value, true), true, false), value);
    }
}

/// Whatever `add_path` says, though the encoder's comment has an error for an id without it; and no warning of a route of another family.
fn ids_and_families_of_routes_are_written_as_they_are() {
    let mut tagged = NetworkPrefix::from_str("2000::/8").unwrap();
    tagged.path_id = Some(7);
    let plain = NetworkPrefix::from_str("10.0.0.0/8").unwrap();
    let nlri = of_ipv6(None, vec![tagged, plain]);
    for add_path in [false, true] {
        assert_eq!(written(&nlri, false, add_path), [0, 2, 1, 0, 0, 0, 7, 8, 0x20, 8, 10]);
    }
}

/// The value alone has none; a length of two bytes limits it to 65,535 bytes, of one byte to 255.
fn a_written_announcement_has_the_limit_of_its_attribute() {
    let of_size = |size: usize| of_ipv6(None, vec![NetworkPrefix::from_str("::/0").unwrap(); size - 3]);
    let encode =
        |size, flag| Attribute { value: AttributeValue::MpUnreachNlri(of_size(size)), flag }.encode(AsnLength::Bits32);
    assert_eq!(written(&of_size(65_536), false, false).len(), 65_536);
    for (flag, most) in [(AttrFlags::EXTENDED, 65_535), (AttrFlags::OPTIONAL, 255)] {
        assert!(encode(most, flag).is_ok());
        assert!(matches!(encode(most + 1, flag), Err(EncodingError::ValueTooLarge { .. })));
    }
}
