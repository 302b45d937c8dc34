"""The calls of bindings/c/cms_canon.h, with the types of their arguments there. scripts/generate writes this file."""

PROTOTYPES = {
    "cms_canon_convert": (
        "const uint8_t *",  # input
        "size_t",  # input_length
        "uint64_t",  # limit
        "uint8_t *",  # output
        "size_t",  # output_room
        "struct cms_canon_outcome *",  # outcome
    ),
    "cms_canon_convert_many": (
        "const uint8_t *",  # input
        "size_t",  # input_length
        "uint64_t",  # limit
        "uint8_t *",  # output
        "size_t",  # output_room
        "struct cms_canon_many *",  # many
    ),
    "cms_canon_extent": (
        "const uint8_t *",  # input
        "size_t",  # input_length
        "uint64_t",  # limit
        "struct cms_canon_extent *",  # extent
    ),
    "cms_canon_cover": (
        "const uint8_t *",  # input
        "size_t",  # input_length
        "const uint64_t *",  # path
        "size_t",  # path_length
        "const uint8_t *",  # content
        "size_t",  # content_length
        "bool",  # has_content
        "uint64_t",  # limit
        "uint8_t *",  # output
        "size_t",  # output_room
        "struct cms_canon_outcome *",  # outcome
    ),
    "cms_canon_show": (
        "const uint8_t *",  # input
        "size_t",  # input_length
        "uint64_t",  # limit
        "uint8_t *",  # output
        "size_t",  # output_room
        "struct cms_canon_outcome *",  # outcome
    ),
    "cms_canon_check": (
        "const uint8_t *",  # input
        "size_t",  # input_length
        "const uint8_t *",  # content
        "size_t",  # content_length
        "bool",  # has_content
        "const uint8_t *",  # data
        "size_t",  # data_length
        "bool",  # has_data
        "uint64_t",  # limit
        "struct cms_canon_finding *",  # findings
        "size_t",  # findings_room
        "struct cms_canon_outcome *",  # outcome
    ),
    "cms_canon_digests_asked": (
        "const uint8_t *",  # input
        "size_t",  # input_length
        "uint64_t",  # limit
        "struct cms_canon_digest_asked *",  # asked
        "size_t",  # asked_room
        "struct cms_canon_outcome *",  # outcome
    ),
    "cms_canon_check_digests": (
        "const uint8_t *",  # input
        "size_t",  # input_length
        "const struct cms_canon_digest *",  # content
        "size_t",  # content_count
        "bool",  # has_content
        "const struct cms_canon_digest *",  # data
        "size_t",  # data_count
        "bool",  # has_data
        "uint64_t",  # limit
        "struct cms_canon_finding *",  # findings
        "size_t",  # findings_room
        "struct cms_canon_outcome *",  # outcome
    ),
    "cms_canon_same": (
        "const uint8_t *",  # first
        "size_t",  # first_length
        "const uint8_t *",  # second
        "size_t",  # second_length
        "uint64_t",  # limit
        "struct cms_canon_outcome *",  # outcome
    ),
    "cms_canon_fields": (
        "const uint8_t *",  # input
        "size_t",  # input_length
        "uint64_t",  # limit
        "struct cms_canon_row *",  # fields
        "size_t",  # fields_room
        "struct cms_canon_outcome *",  # outcome
    ),
    "cms_canon_tst_info_fields": (
        "const uint8_t *",  # content
        "size_t",  # content_length
        "struct cms_canon_row *",  # fields
        "size_t",  # fields_room
        "struct cms_canon_outcome *",  # outcome
    ),
    "cms_canon_pieces": (
        "const uint8_t *",  # input
        "size_t",  # input_length
        "uint64_t",  # limit
        "struct cms_canon_piece *",  # pieces
        "size_t",  # pieces_room
        "struct cms_canon_outcome *",  # outcome
    ),
    "cms_canon_changes": (
        "const uint8_t *",  # input
        "size_t",  # input_length
        "uint64_t",  # limit
        "struct cms_canon_change *",  # changes
        "size_t",  # changes_room
        "struct cms_canon_outcome *",  # outcome
    ),
    "cms_canon_list_changes": (
        "const uint8_t *",  # input
        "size_t",  # input_length
        "bool",  # json
        "uint64_t",  # limit
        "uint8_t *",  # output
        "size_t",  # output_room
        "struct cms_canon_outcome *",  # outcome
    ),
}
