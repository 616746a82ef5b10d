"""Names of DWARF's numbers (DWARF 5, chapter 7, and those of GNU and LLVM that compilers use)."""

FORMS = {
    0x01: "addr", 0x03: "block2", 0x04: "block4", 0x05: "data2", 0x06: "data4", 0x07: "data8", 0x08: "string",
    0x09: "block", 0x0A: "block1", 0x0B: "data1", 0x0C: "flag", 0x0D: "sdata", 0x0E: "strp", 0x0F: "udata",
    0x10: "ref_addr", 0x11: "ref1", 0x12: "ref2", 0x13: "ref4", 0x14: "ref8", 0x15: "ref_udata", 0x16: "indirect",
    0x17: "sec_offset", 0x18: "exprloc", 0x19: "flag_present", 0x1A: "strx", 0x1B: "addrx", 0x1C: "ref_sup4",
    0x1D: "strp_sup", 0x1E: "data16", 0x1F: "line_strp", 0x20: "ref_sig8", 0x21: "implicit_const", 0x22: "loclistx",
    0x23: "rnglistx", 0x24: "ref_sup8", 0x25: "strx1", 0x26: "strx2", 0x27: "strx3", 0x28: "strx4", 0x29: "addrx1",
    0x2A: "addrx2", 0x2B: "addrx3", 0x2C: "addrx4", 0x1F01: "GNU_addr_index", 0x1F02: "GNU_str_index",
    0x1F20: "GNU_ref_alt", 0x1F21: "GNU_strp_alt", 0x2001: "LLVM_addrx_offset"}
ATTRIBUTES = {
    0x01: "sibling", 0x02: "location", 0x03: "name", 0x09: "ordering", 0x0B: "byte_size", 0x0D: "bit_size",
    0x10: "stmt_list", 0x11: "low_pc", 0x12: "high_pc", 0x13: "language", 0x15: "discr", 0x16: "discr_value",
    0x17: "visibility", 0x18: "import", 0x19: "string_length", 0x1A: "common_reference", 0x1B: "comp_dir",
    0x1C: "const_value", 0x1D: "containing_type", 0x1E: "default_value", 0x20: "inline", 0x21: "is_optional",
    0x22: "lower_bound", 0x25: "producer", 0x27: "prototyped", 0x2A: "return_addr", 0x2C: "start_scope",
    0x2E: "bit_stride", 0x2F: "upper_bound", 0x31: "abstract_origin", 0x32: "accessibility", 0x33: "address_class",
    0x34: "artificial", 0x35: "base_types", 0x36: "calling_convention", 0x37: "count", 0x38: "data_member_location",
    0x39: "decl_column", 0x3A: "decl_file", 0x3B: "decl_line", 0x3C: "declaration", 0x3D: "discr_list",
    0x3E: "encoding", 0x3F: "external", 0x40: "frame_base", 0x41: "friend", 0x42: "identifier_case",
    0x44: "namelist_item", 0x45: "priority", 0x46: "segment", 0x47: "specification", 0x48: "static_link", 0x49: "type",
    0x4A: "use_location", 0x4B: "variable_parameter", 0x4C: "virtuality", 0x4D: "vtable_elem_location",
    0x4E: "allocated", 0x4F: "associated", 0x50: "data_location", 0x51: "byte_stride", 0x52: "entry_pc",
    0x53: "use_UTF8", 0x54: "extension", 0x55: "ranges", 0x56: "trampoline", 0x57: "call_column", 0x58: "call_file",
    0x59: "call_line", 0x5A: "description", 0x63: "explicit", 0x64: "object_pointer", 0x66: "elemental", 0x67: "pure",
    0x68: "recursive", 0x69: "signature", 0x6A: "main_subprogram", 0x6B: "data_bit_offset", 0x6C: "const_expr",
    0x6D: "enum_class", 0x6E: "linkage_name", 0x6F: "string_length_bit_size", 0x71: "rank", 0x72: "str_offsets_base",
    0x73: "addr_base", 0x74: "rnglists_base", 0x76: "dwo_name", 0x77: "reference", 0x78: "rvalue_reference",
    0x79: "macros", 0x7A: "call_all_calls", 0x7B: "call_all_source_calls", 0x7C: "call_all_tail_calls",
    0x7D: "call_return_pc", 0x7E: "call_value", 0x7F: "call_origin", 0x80: "call_parameter", 0x81: "call_pc",
    0x82: "call_tail_call", 0x83: "call_target", 0x84: "call_target_clobbered", 0x87: "noreturn", 0x88: "alignment",
    0x89: "export_symbols", 0x8A: "deleted", 0x8B: "defaulted", 0x8C: "loclists_base", 0x2137: "GNU_locviews",
    0x2138: "GNU_entry_view"}
TAGS = {
    0x01: "array_type", 0x02: "class_type", 0x04: "enumeration_type", 0x05: "formal_parameter", 0x0A: "label",
    0x0B: "lexical_block", 0x0D: "member", 0x0F: "pointer_type", 0x10: "reference_type", 0x11: "compile_unit",
    0x12: "string_type", 0x13: "structure_type", 0x15: "subroutine_type", 0x16: "typedef", 0x17: "union_type",
    0x18: "unspecified_parameters", 0x1C: "inheritance", 0x1D: "inlined_subroutine", 0x1F: "ptr_to_member_type",
    0x21: "subrange_type", 0x24: "base_type", 0x26: "const_type", 0x28: "enumerator", 0x2E: "subprogram",
    0x2F: "template_type_parameter", 0x30: "template_value_parameter", 0x34: "variable", 0x35: "volatile_type",
    0x37: "restrict_type", 0x39: "namespace", 0x3B: "unspecified_type", 0x3C: "partial_unit", 0x3D: "imported_unit",
    0x41: "type_unit", 0x42: "rvalue_reference_type", 0x48: "call_site", 0x49: "call_site_parameter",
    0x4A: "skeleton_unit"}
UNIT_TYPES = {1: "compile", 2: "type", 3: "partial", 4: "skeleton", 5: "split_compile", 6: "split_type"}
CONTENTS = {1: "path", 2: "directory_index", 3: "timestamp", 4: "size", 5: "MD5", 0x2001: "LLVM_source"}
# Shapes of values: a size in bytes, or a letter: u and s are LEB128, t a text, n and nothing bytes after a length of n
# bytes (b of a LEB128 length), i implicit, * indirect, and sixteen bytes.
SHAPES = {
    0x01: 8, 0x03: "b2", 0x04: "b4", 0x05: 2, 0x06: 4, 0x07: 8, 0x08: "t", 0x09: "b", 0x0A: "b1", 0x0B: 1, 0x0C: 1,
    0x0D: "s", 0x0E: 4, 0x0F: "u", 0x10: 4, 0x11: 1, 0x12: 2, 0x13: 4, 0x14: 8, 0x15: "u", 0x16: "*", 0x17: 4,
    0x18: "b", 0x19: 0, 0x1A: "u", 0x1B: "u", 0x1C: 4, 0x1D: 4, 0x1E: 16, 0x1F: 4, 0x20: 8, 0x21: "i", 0x22: "u",
    0x23: "u", 0x24: 8, 0x25: 1, 0x26: 2, 0x27: 3, 0x28: 4, 0x29: 1, 0x2A: 2, 0x2B: 3, 0x2C: 4}
INDIRECT, IMPLICIT = 0x16, 0x21
ADDRESS_INDEXES, TEXT_INDEXES = {0x1B, 0x29, 0x2A, 0x2B, 0x2C}, {0x1A, 0x25, 0x26, 0x27, 0x28}
BLOCKS = {0x09, 0x0A, 0x03, 0x04, 0x18}


def form(number):
    return f"DW_FORM_{FORMS[number]}" if number in FORMS else f"the form {number:#x}"


def attribute(number):
    return f"DW_AT_{ATTRIBUTES[number]}" if number in ATTRIBUTES else f"the attribute {number:#x}"


def tag(number):
    return f"DW_TAG_{TAGS[number]}" if number in TAGS else f"the tag {number:#x}"


def value(fields, number, implicit, what):
    """A value of a form: of a text in place its offset, and 0 for other forms without a number."""
    shape = SHAPES[number]
    if shape in ("u", "s"):
        return fields.uleb(what) if shape == "u" else fields.sleb(what)
    if shape == "t":
        start = fields.at
        fields.text(what)
        return start
    elif shape == "i":
        return implicit
    elif shape == "b":
        fields.leb_block(what)
    elif isinstance(shape, str):
        fields.take(fields.number(int(shape[1:]), f"the length of {what}"), what)
    else:
        found = fields.take(shape, what)
        return int.from_bytes(found, "little") if shape <= 8 else 0
    return 0
