//! The functions of the archive. A byte slice is passed as pointer and length.

/// The answer of a call with a refusal number and up to three values.
#[repr(C)]
pub(crate) struct Reply {
    /// 0 if the call was accepted, else the number of the refusal.
    pub number: u64,
    /// How many of the values count.
    pub count: u64,
    pub first: u64,
    pub second: u64,
    pub third: u64,
}

extern "C" {
    pub(crate) fn opc_is_part_name(name: *const u8, length: usize) -> bool;
    pub(crate) fn opc_is_reserved(name: *const u8, length: usize) -> bool;
    pub(crate) fn opc_is_equivalent(
        a: *const u8,
        a_length: usize,
        b: *const u8,
        b_length: usize,
    ) -> bool;
    pub(crate) fn opc_is_derivable(
        a: *const u8,
        a_length: usize,
        b: *const u8,
        b_length: usize,
    ) -> bool;
    pub(crate) fn opc_compare_folded(
        a: *const u8,
        a_length: usize,
        b: *const u8,
        b_length: usize,
    ) -> u8;
    pub(crate) fn opc_extension_at(name: *const u8, length: usize) -> usize;
    pub(crate) fn opc_take_apart(name: *const u8, length: usize) -> Reply;
    pub(crate) fn opc_is_media_type(text: *const u8, length: usize) -> bool;
    pub(crate) fn opc_is_extension(text: *const u8, length: usize) -> bool;
    pub(crate) fn opc_is_id(text: *const u8, length: usize) -> bool;
    pub(crate) fn opc_is_iri(text: *const u8, length: usize) -> bool;
    pub(crate) fn opc_is_package_iri(text: *const u8, length: usize) -> bool;
    pub(crate) fn opc_resolve_reference(
        base: *const u8,
        base_length: usize,
        reference: *const u8,
        reference_length: usize,
        out: *mut u8,
        out_length: usize,
    ) -> Reply;
    pub(crate) fn opc_resolve_target(
        source: *const u8,
        source_length: usize,
        target: *const u8,
        target_length: usize,
        out: *mut u8,
        out_length: usize,
    ) -> Reply;
    pub(crate) fn opc_compose_pack_iri(
        package: *const u8,
        package_length: usize,
        name: *const u8,
        name_length: usize,
        out: *mut u8,
        out_length: usize,
    ) -> Reply;
    pub(crate) fn opc_resolve_pack_iri(
        iri: *const u8,
        iri_length: usize,
        out: *mut u8,
        out_length: usize,
    ) -> Reply;
    pub(crate) fn opc_relationships_part(
        source: *const u8,
        source_length: usize,
        out: *mut u8,
        out_length: usize,
    ) -> Reply;
    pub(crate) fn opc_source_of_relationships_part(
        name: *const u8,
        name_length: usize,
        out: *mut u8,
        out_length: usize,
    ) -> Reply;
    pub(crate) fn opc_start(package: *mut u8, package_length: usize, capacity: u64) -> Reply;
    pub(crate) fn opc_put_item(
        package: *mut u8,
        package_length: usize,
        name: *const u8,
        name_length: usize,
        bytes: *const u8,
        bytes_length: usize,
    ) -> Reply;
    pub(crate) fn opc_drop_item(
        package: *mut u8,
        package_length: usize,
        name: *const u8,
        name_length: usize,
    ) -> Reply;
    pub(crate) fn opc_find_item(
        package: *const u8,
        package_length: usize,
        name: *const u8,
        name_length: usize,
    ) -> Reply;
    pub(crate) fn opc_view_item(
        package: *const u8,
        package_length: usize,
        name: *const u8,
        name_length: usize,
    ) -> Reply;
    pub(crate) fn opc_read_part(
        package: *const u8,
        package_length: usize,
        name: *const u8,
        name_length: usize,
        offset: u64,
        out: *mut u8,
        out_length: usize,
    ) -> Reply;
    pub(crate) fn opc_part_at(
        package: *const u8,
        package_length: usize,
        position: u64,
        out: *mut u8,
        out_length: usize,
    ) -> Reply;
    pub(crate) fn opc_cut_part(
        package: *mut u8,
        package_length: usize,
        name: *const u8,
        name_length: usize,
        pieces: u64,
    ) -> Reply;
    pub(crate) fn opc_join_part(
        package: *mut u8,
        package_length: usize,
        name: *const u8,
        name_length: usize,
    ) -> Reply;
    pub(crate) fn opc_totals(package: *const u8, package_length: usize) -> Reply;
    pub(crate) fn opc_entry_at(
        package: *const u8,
        package_length: usize,
        set: u64,
        position: u64,
        field: u64,
        out: *mut u8,
        out_length: usize,
    ) -> Reply;
    pub(crate) fn opc_put_default(
        package: *mut u8,
        package_length: usize,
        extension: *const u8,
        extension_length: usize,
        media_type: *const u8,
        media_type_length: usize,
    ) -> Reply;
    pub(crate) fn opc_drop_default(
        package: *mut u8,
        package_length: usize,
        extension: *const u8,
        extension_length: usize,
    ) -> Reply;
    pub(crate) fn opc_put_override(
        package: *mut u8,
        package_length: usize,
        name: *const u8,
        name_length: usize,
        media_type: *const u8,
        media_type_length: usize,
    ) -> Reply;
    pub(crate) fn opc_drop_override(
        package: *mut u8,
        package_length: usize,
        name: *const u8,
        name_length: usize,
    ) -> Reply;
    pub(crate) fn opc_media_type(
        package: *const u8,
        package_length: usize,
        name: *const u8,
        name_length: usize,
        out: *mut u8,
        out_length: usize,
    ) -> Reply;
    pub(crate) fn opc_type_origin(
        package: *const u8,
        package_length: usize,
        name: *const u8,
        name_length: usize,
        out: *mut u8,
        out_length: usize,
    ) -> Reply;
    pub(crate) fn opc_put_relationship(
        package: *mut u8,
        package_length: usize,
        source: *const u8,
        source_length: usize,
        id: *const u8,
        id_length: usize,
        kind: *const u8,
        kind_length: usize,
        mode: u64,
        target: *const u8,
        target_length: usize,
    ) -> Reply;
    pub(crate) fn opc_drop_relationship(
        package: *mut u8,
        package_length: usize,
        source: *const u8,
        source_length: usize,
        id: *const u8,
        id_length: usize,
    ) -> Reply;
    pub(crate) fn opc_resolve_relationship(
        package: *const u8,
        package_length: usize,
        source: *const u8,
        source_length: usize,
        id: *const u8,
        id_length: usize,
        base: *const u8,
        base_length: usize,
        out: *mut u8,
        out_length: usize,
    ) -> Reply;
}

// The streams.
extern "C" {
    pub(crate) fn opc_write_types(
        package: *const u8,
        package_length: usize,
        out: *mut u8,
        out_length: usize,
    ) -> Reply;
    pub(crate) fn opc_write_relationships(
        package: *const u8,
        package_length: usize,
        source: *const u8,
        source_length: usize,
        out: *mut u8,
        out_length: usize,
    ) -> Reply;
    pub(crate) fn opc_read_types(
        package: *mut u8,
        package_length: usize,
        stream: *const u8,
        stream_length: usize,
    ) -> Reply;
    pub(crate) fn opc_read_relationships(
        package: *mut u8,
        package_length: usize,
        source: *const u8,
        source_length: usize,
        stream: *const u8,
        stream_length: usize,
    ) -> Reply;
}

// Scripts.
extern "C" {
    pub(crate) fn opc_run(
        package: *mut u8,
        package_length: usize,
        script: *const u8,
        script_length: usize,
        out: *mut u8,
        out_length: usize,
    ) -> Reply;
}
