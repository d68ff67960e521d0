// What the page has to show, worked out by hand from docs/GRAMMAR.md, and fragments that mean harm.

/**
 * Each case: the fragment without its text, the text as one types it, the answer, a letter for the
 * part of each byte (s sign, p prefix, d digit, _ separator, x suffix, r rest), the heading of
 * GRAMMAR.md that the last rule links to, and what one of the rules says, where that is asked.
 */
export const CASES = [
  ["type=u64", "18446744073709551616", "Err(Overflow(19))", "d".repeat(20),
    "values-outside-the-type"],
  ["type=i8", "-1290", "Err(Underflow(3))", "sdddr", "values-outside-the-type"],
  ["type=u8", "2566x", "Err(Overflow(2))", "dddrr", "values-outside-the-type"],
  ["type=i32", "+12", "Ok(12)", "sdd", "the-numeral-and-its-value"],
  ["type=u8", "-1", "Err(InvalidDigit(0))", "rr", "the-sign"],
  ["type=i32", "--1", "Err(InvalidDigit(1))", "srr", "digits"],
  ["type=i32&no_positive_mantissa_sign=1", "+1", "Err(InvalidPositiveSign(0))", "sd", "the-sign"],
  ["type=i32&required_mantissa_sign=1", "1", "Err(MissingSign(0))", "d", "the-sign"],
  ["type=i32", "", "Err(Empty(0))", "", "required-digits"],
  ["type=i32", "+", "Err(Empty(1))", "s", "required-digits"],
  ["type=i32&call=front", "x", "Err(Empty(0))", "r", "required-digits"],
  ["type=i32&call=partial", "x", "Ok((0, 0))", "r", "the-partial-parser",
    "No digit stands here, and a partial parse then returns 0."],
  ["type=i32&required_mantissa_digits=0", "+", "Ok(0)", "s", "required-digits",
    "No digit is required, so the number is 0."],
  ["type=i32&base_prefix=x", "-0x12", "Ok(-12)", "sppdd", "the-numeral-and-its-value"],
  ["type=i32&base_prefix=x", "-0x", "Err(Empty(3))", "spp", "the-prefix"],
  ["type=i32&base_prefix=x&case_sensitive_base_prefix=1", "0X1", "Err(InvalidDigit(1))", "drr",
    "digits"],
  ["type=u32&format=rust", "0x_1_F", "Ok(31)", "pp_d_d", "the-numeral-and-its-value",
    "allowed by integer_internal_digit_separator and integer_prefix_digit_separator."],
  ["type=u32&format=rust", "1__2_", "Ok(12)", "d__d_", "the-numeral-and-its-value",
    "internal_digit_separator and integer_trailing_digit_separator and integer_consecutive"],
  ["type=u8&format=rust", "1_2", "Ok(12)", "d_d", "the-numeral-and-its-value", "digits bytes 0, 2"],
  ["type=u32&format=rust", "_1", "Err(InvalidDigit(0))", "rr", "separators"],
  ["type=u32&format=rust", "0b12", "Err(InvalidDigit(3))", "ppdr", "digits"],
  ["type=u32&format=go", "0x__1", "Err(InvalidDigit(2))", "pprrr", "separators"],
  ["type=u32&format=c", "0777", "Ok(511)", "dddd", "the-numeral-and-its-value",
    "Digits of radix 8, because of the zero in front."],
  ["type=u8&format=c", "77", "Ok(77)", "dd", "the-numeral-and-its-value", "Digits of radix 10."],
  ["type=i8&format=c", "-0x7f", "Ok(-127)", "sppdd", "the-numeral-and-its-value", "the radix 16."],
  ["type=u32&format=c", "08", "Err(InvalidDigit(1))", "dr", "digits"],
  ["type=i32&format=json", "-01", "Err(InvalidLeadingZeros(1))", "sdd", "leading-zeros"],
  ["type=i32&base_suffix=h", "12h", "Ok(12)", "ddx", "the-numeral-and-its-value"],
  ["type=i32&base_suffix=h", "1hh", "Err(InvalidDigit(2))", "dxr",
    "the-suffix-and-where-reading-stops"],
  ["type=i64&base_suffix=h&digit_separator=_&integer_trailing_digit_separator=1", "1_h", "Ok(1)",
    "d_x", "the-numeral-and-its-value"],
  ["type=i64&base_suffix=h&digit_separator=_&integer_trailing_digit_separator=1", "1h_",
    "Err(InvalidDigit(2))", "dxr", "the-suffix-and-where-reading-stops", "“_” follows the suffix."],
  ["type=u8&digit_separator=%5Cx00&integer_internal_digit_separator=1", "1\\02", "Ok(12)", "d_d",
    "the-numeral-and-its-value"],
  ["type=u64&call=front", "1234 }", "Ok((1234, 4))", "ddddrr", "the-numeral-and-its-value"],
  ["type=u8&mantissa_radix=37", "1", "Err(InvalidMantissaRadix)", "r", "valid-formats"],
  ["type=u8&digit_separator=é", "1", "digit_separator has to be one byte, and this has 2", ""],
  ["type=i32", "12\\n", "Err(InvalidDigit(2))", "ddr", "digits"],
];

/** Fragments that no link of the page is: each shows an answer all the same. */
export const HOSTILE = [
  "", "&&&===", "text", "text=%", "text=%FF%FE", "text=%00", "text=\\x", "text=\\xZZ\\",
  "text=<img src=x onerror=window.harmed=1>", "text=%3Cscript%3Ewindow.harmed=1%3C/script%3E",
  "format=<img src=x onerror=window.harmed=1>", "caller=<b>", "type=__proto__", "format=valueOf",
  "call=toString", "caller=__proto__", "__proto__=1&constructor=2&toString=3", "mantissa_radix=-1",
  "mantissa_radix=999999999999", "mantissa_radix=1e1", "mantissa_radix=", "literal_prefixes=2",
  "literal_prefixes=constructor", "literal_octal_zero=__proto__",
  "digit_separator=%F0%9F%98%80", "digit_separator=__&base_prefix=__", "text=1&text=2&type=u8",
  "type=U64", "format=RUST", "text=\u{1F600}\u200E\u202E1", "text=\\'\\\"&caller=Python",
];
