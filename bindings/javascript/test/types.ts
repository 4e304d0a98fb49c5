// What a caller in TypeScript writes: check has tsc read it where that is installed.
import * as cbor from "semphluk";
import { CborError, Schema, items, type Misfit, type Violation } from "semphluk";

const item: Uint8Array = cbor.fromEdn("[1, 2]");
const text: string = cbor.toEdn(item, { pretty: true });
const made: Uint8Array = cbor.convert("hex", "bytes", "01");
const dump: string = cbor.convert("bytes", "hex", made.buffer);
const found: Violation | undefined = cbor.violation(item, "core");
const misfit: Misfit | undefined = new Schema("a = uint").check(item);
const scalar: cbor.Scalar = cbor.value(item, "0");
const pairs: Map<string, string> = new Map(cbor.paths(item));
const { form, bytes }: { form: cbor.Input; bytes: Uint8Array } = cbor.recognize("82 01 02");

export async function read(stream: AsyncIterable<Uint8Array>): Promise<number> {
    let sum = 0;
    for await (const one of items(stream)) {
        sum += one.length;
    }
    try {
        cbor.extent(item);
    } catch (error) {
        if (error instanceof CborError && error.code === "CUT_SHORT") {
            sum += error.offset ?? 0;
        }
    }
    return sum;
}

// @ts-expect-error: a string has no bytes
cbor.toEdn("01");
// @ts-expect-error: no such form
cbor.convert("cbor", "edn", item);
// @ts-expect-error: no such rules
cbor.reencode(item, "canonical");

export const all = [text, dump, found, misfit, scalar, pairs, form, bytes];
