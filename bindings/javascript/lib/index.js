// All that the package has, once node.js or web.js has loaded the module.
export {
    convert, extent, fromDiag, fromEdn, fromHex, libraryVersion, reencode, toDiag, toEdn, toHex, toJson, violation,
} from "./convert.js";
export { CborError } from "./error.js";
export { nameAt, named, namesFault, page, part, parts, paths, recognize, value } from "./parts.js";
export { items, Scanner } from "./scanner.js";
export { Schema } from "./schema.js";
