/** What is wrong with an input. README.md says what the properties are. */
export class CborError extends Error {
    constructor(code, message, told = {}) {
        super(message);
        this.name = "CborError";
        this.code = code;
        this.offset = undefined;
        this.path = undefined;
        Object.assign(this, told);
    }
}
