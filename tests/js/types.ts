// What TypeScript, from 4.8 on, makes of index.d.ts: all of it fits, but where an error is expected.
import {
  Format, formats, HeaderError, parse, parseColumn, ParseError, parseFront, parseLiteral, parseTable,
  parseTypedLiteral,
} from "../../bindings/js/index.js";
import type {
  NumberOf, NumberType, Skipped, Sparse, Table, TableColumn, TextColumn, TypedLiteral,
} from "../../bindings/js/index.js";

export const small: number = parse("255", "u8", new Format({ mantissa_radix: 16 }));
export const wide: bigint = parse(Uint8Array.of(49), "u64", formats.RUST);
export const front: { value: number; stop: number } = parseFront("12px", "u16");
export const suffix: string = parseLiteral("1u").suffix;
const typed = parseTypedLiteral("1u8", { "": "i64", u8: "u8" }, formats.RUST);
export const valueOfTyped: number | bigint = typed.type === "u8" ? typed.value + 1 : typed.value + 1n;
const suffixes: { [suffix: string]: NumberType } = { u: "u128" };
export const anyTyped: TypedLiteral = parseTypedLiteral("1u", suffixes);
export const column: BigInt64Array = parseColumn("12", "i64", ",");
export const [bytes, unread, sparse] = parseTable("1,x,", ["u8", null, { type: "i32", may_miss: true }]);
export const ofTable: [Uint8Array, null, Int32Array, Uint8Array] = [
  bytes, unread, sparse.numbers, sparse.present,
];
const columns: TableColumn[] = ["u8"];
export const count: number = parseTable("1", columns, { widths: [1], is_records: true }).length;
export const port: number = parse("80", "u16", { min: 1, max: 65535n, format: formats.JSON });
export const middle: number = parseFront("12px", "u16", { format: formats.C }).value;
export const named: BigInt64Array = parseColumn("12", "i64", { separator: ",", format: formats.C });
const chosen = parseTable("id,a\n", { id: "u64", a: { type: "i8", may_miss: true } }, { header: true });
export const ids: BigUint64Array = chosen.id;
export const present: Uint8Array = chosen.a.present;
export const names = (error: unknown): string[] => (error instanceof HeaderError ? error.names : []);

export const cents: bigint = parse("12.50", "i64", { places: 2, point: ".", group: null, takes_fewer: true, max: 5n });
export const amountFront: number = parseFront("12.50 EUR", "u32", { places: 2, format: formats.SQL }).value;
export const lines: Uint8Array = parseColumn("1\r\n", "u8", { allows_returns: true, allows_blanks: true, places: 1 });
export const sparseLines: Sparse<Int8Array> = parseColumn("NA", "i8", { may_miss: true, missing: "NA" });
const isSparse: boolean = lines.length > 0;
export const either: Uint8Array | Sparse<Uint8Array> = parseColumn("1", "u8", { may_miss: isSparse });
const [what, amounts, note] = parseTable("a,1,b", [
  "text", { type: "i64", places: 2, may_miss: true }, { type: "text", encoding: "iso-8859-1", may_miss: true },
]);
export const ofTexts: [TextColumn, BigInt64Array, string[]] = [note, amounts.numbers, Array.from(what, String)];
export const textOfRow: string | null | undefined = what.at(-1);
export const bytesOfRow: Uint8Array | null | undefined = what.bytesAt(0);
export const places: [Float64Array, Uint32Array, Uint8Array, Uint8Array | undefined] = [
  what.starts, what.sizes, what.hasDoubledQuotes, what.present,
];
const bad: ParseError[] = [];
const skipped = parseTable("1", ["u8"], { onError: "skip", errors: bad, allows_returns: true });
export const right: [Uint8Array] = skipped.columns;
export const badRows: number = skipped.badRows;
const byName: Skipped<{ day: TextColumn; id: BigUint64Array }> = parseTable(
  "id\n", { day: "text", id: "u64" }, { header: true, onError: "skip", errors: (it) => bad.push(it) },
);
export const days: string[] = Array.from(byName.columns.day, String);
const written: Table = { separator: ";", header: false };
export const plain: [Uint8Array] = parseTable("1", ["u8"], written);
export const row = ({ row, line, column, columnName, rowStart, rowStop, text, kind }: ParseError): string =>
  `${kind} ${row} ${line} ${column} ${columnName ?? ""} ${text ?? ""} ${(rowStop ?? 0) - (rowStart ?? 0)}`;
export const read = <T extends NumberType>(text: string, type: T): NumberOf<T> => parse(text, type);
export const described = (error: unknown) => error instanceof ParseError && `${error.kind} ${error.place}`;

// @ts-expect-error
parse(12, "u8");
// @ts-expect-error
parse("12", "u8", { minimum: 1 });
// @ts-expect-error
parseFront("12", "u8", { min: 1 });
// @ts-expect-error (names need a header)
parseTable("id\n", { id: "u64" }, {});
// @ts-expect-error
parse("12", "u7");
// @ts-expect-error
parseTypedLiteral("12u", { u: "u7" });
// @ts-expect-error (fields alone are no format)
parse("12", "u8", { ...formats.RUST });
// @ts-expect-error
parseColumn("12", "u128");
// @ts-expect-error
parseTable("12", ["u8"], { seperator: ";" });
// @ts-expect-error
new Format({ radix: 16 });
// @ts-expect-error
formats.C.mantissa_radix = 16;
// @ts-expect-error (as C has its name)
parse("12", "u8", { places: 2, takesFewer: true });
// @ts-expect-error
parseColumn("1", "u8", { has_quotes: true });
// @ts-expect-error
parseColumn("1", "text");
// @ts-expect-error
parseTable("1", [{ type: "text", places: 2 }]);
// @ts-expect-error
parseTable("1", [{ type: "u8", encoding: "utf-8" }]);
// @ts-expect-error
parseTable("1", ["u8"], { onError: "raise" });
// @ts-expect-error (only skipping has them)
parseTable("1", ["u8"], { errors: [] });
// @ts-expect-error
what.starts = new Float64Array();
// @ts-expect-error (a text may be missing)
export const some: string = what.at(0);
