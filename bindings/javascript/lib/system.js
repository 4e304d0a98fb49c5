// The system for cborcat.wasm: WASI, preview 1, as far as machines/wasm/system.c calls it, by node's own calls. A path
// is what node takes it for, on each system, and nothing is hidden from the program.
import fs from "node:fs";
import tty from "node:tty";

// WASI's numbers of errors.
const ERRORS = {
    EACCES: 2, EAGAIN: 6, EBADF: 8, EBUSY: 10, EEXIST: 20, EFBIG: 22, EINTR: 27, EINVAL: 28, EIO: 29, EISDIR: 31,
    ELOOP: 32, EMFILE: 33, ENAMETOOLONG: 37, ENFILE: 41, ENOENT: 44, ENOMEM: 48, ENOSPC: 51, ENOTDIR: 54, ENOTEMPTY: 55,
    ENXIO: 60, EPERM: 63, EPIPE: 64, EROFS: 69, ESPIPE: 70, ETXTBSY: 74, EXDEV: 75,
};
// WASI's kinds of files, and rights.
const KIND = { UNKNOWN: 0, BLOCKS: 1, CHARACTERS: 2, FOLDER: 3, FILE: 4, SOCKET: 6, LINK: 7 };
const RIGHT = { READ: 1n << 1n, SEEK: 1n << 2n, TELL: 1n << 5n, WRITE: 1n << 6n };
// The folders that all paths are in, by descriptors 3 and 4.
const ROOTS = [".", "/"];
const FIRST_FILE = 5;
// How many milliseconds pass before a stream that had nothing yet is asked again.
const PAUSE = 5;

const encoder = new TextEncoder();
const decoder = new TextDecoder();

/** Ends the program. */
class Exit {
    constructor(status) {
        this.status = status;
    }
}

function failure(code) {
    return Object.assign(new Error(code), { code });
}

/** What a call of the system answers: 0, or the number of its error. */
function attempt(does) {
    try {
        does();
        return 0;
    } catch (error) {
        if (error instanceof Exit || !error.code) {
            throw error;
        }
        return ERRORS[error.code] ?? ERRORS.EIO;
    }
}

function pause() {
    Atomics.wait(new Int32Array(new SharedArrayBuffer(4)), 0, 0, PAUSE);
}

function kindOf(stat) {
    const kinds = [["isFile", "FILE"], ["isDirectory", "FOLDER"], ["isCharacterDevice", "CHARACTERS"],
        ["isSymbolicLink", "LINK"], ["isBlockDevice", "BLOCKS"], ["isSocket", "SOCKET"]];
    const found = kinds.find(([is]) => stat[is]());
    return KIND[found ? found[1] : "UNKNOWN"];
}

/** The flags of node for those of WASI. */
function openFlags(how, rights, flags) {
    const { O_RDONLY, O_WRONLY, O_RDWR, O_CREAT, O_EXCL, O_TRUNC, O_APPEND } = fs.constants;
    const access = rights & RIGHT.WRITE ? (rights & RIGHT.READ ? O_RDWR : O_WRONLY) : O_RDONLY;
    const made = [[how & 1, O_CREAT], [how & 4, O_EXCL], [how & 8, O_TRUNC], [flags & 1, O_APPEND]];
    return made.reduce((sum, [is, flag]) => is ? sum | flag : sum, access);
}

/** A file keeps its mode when another takes its place, since WASI has no modes. */
function keepMode(from, to) {
    try {
        fs.chmodSync(from, fs.statSync(to).mode & 0o7777);
    } catch {
        // It is not there, or has no mode.
    }
}

/** The calls of WASI for one run of a program. */
class System {
    constructor({ args, env, stdio }) {
        this.files = new Map(stdio.entries());
        this.args = ["cborcat", ...args].map((word) => encoder.encode(`${word}\0`));
        this.env = Object.entries(env).map(([name, value]) => encoder.encode(`${name}=${value}\0`));
        this.memory = null;
    }

    get view() {
        return new DataView(this.memory.buffer);
    }

    bytes(at, size) {
        return new Uint8Array(this.memory.buffer, at, size);
    }

    path(root, at, size) {
        return (ROOTS[root - 3] === "/" ? "/" : "") + decoder.decode(this.bytes(at, size));
    }

    file(fd) {
        if (!this.files.has(fd)) {
            throw failure("EBADF");
        }
        return this.files.get(fd);
    }

    // ---- arguments and the environment ----

    putSizes(words, count, size) {
        this.view.setUint32(count, words.length, true);
        this.view.setUint32(size, words.reduce((sum, word) => sum + word.length, 0), true);
        return 0;
    }

    putWords(words, addresses, at) {
        for (const word of words) {
            this.view.setUint32(addresses, at, true);
            this.bytes(at, word.length).set(word);
            addresses += 4;
            at += word.length;
        }
        return 0;
    }

    // ---- files ----

    open(path, flags) {
        const made = fs.openSync(path, flags, 0o666);
        let fd = FIRST_FILE;
        while (this.files.has(fd)) {
            fd += 1;
        }
        this.files.set(fd, made);
        return fd;
    }

    close(fd) {
        const file = this.file(fd);
        this.files.delete(fd);
        fs.closeSync(file);
    }

    /** Reads or writes one part; a stream that has nothing yet, or is full, is tried again. */
    moved(call, fd, part) {
        for (;;) {
            try {
                return call(this.file(fd), part);
            } catch (error) {
                if (error.code === "EOF") {
                    return 0;
                }
                if (error.code !== "EAGAIN") {
                    throw error;
                }
                pause();
            }
        }
    }

    move(call, fd, parts, count, done) {
        let sum = 0;
        for (let part = parts; part < parts + 8 * count; part += 8) {
            const at = this.view.getUint32(part, true);
            sum += this.moved(call, fd, this.bytes(at, this.view.getUint32(part + 4, true)));
        }
        this.view.setUint32(done, sum, true);
    }

    putStat(stat, at) {
        const words = [stat.dev, stat.ino, BigInt(kindOf(stat)), stat.nlink, stat.size, stat.atimeNs, stat.mtimeNs,
            stat.ctimeNs];
        words.forEach((word, place) => this.view.setBigUint64(at + 8 * place, BigInt.asUintN(64, word), true));
    }

    /** A terminal is a character device that can neither seek nor tell. */
    putKind(fd, at) {
        const file = this.file(fd);
        const isTerminal = tty.isatty(file);
        const rights = RIGHT.READ | RIGHT.WRITE | (isTerminal ? 0n : RIGHT.SEEK | RIGHT.TELL);
        this.bytes(at, 24).fill(0);
        this.view.setUint8(at, isTerminal ? KIND.CHARACTERS : kindOf(fs.fstatSync(file)));
        this.view.setBigUint64(at + 8, rights, true);
    }

    putRoot(fd, at) {
        if (!(fd - 3 in ROOTS)) {
            throw failure("EBADF");
        }
        this.view.setUint32(at, 0, true);
        this.view.setUint32(at + 4, ROOTS[fd - 3].length, true);
    }

    putLink(path, buffer, room, used) {
        const text = encoder.encode(fs.readlinkSync(path)).subarray(0, room);
        this.bytes(buffer, text.length).set(text);
        this.view.setUint32(used, text.length, true);
    }

    rename(from, to) {
        keepMode(from, to);
        fs.renameSync(from, to);
    }

    /** The imports of a module. */
    imports() {
        return { ...this.ofProcess(), ...this.ofFiles(), ...this.ofPaths() };
    }

    ofProcess() {
        return {
            args_sizes_get: (count, size) => this.putSizes(this.args, count, size),
            args_get: (addresses, at) => this.putWords(this.args, addresses, at),
            environ_sizes_get: (count, size) => this.putSizes(this.env, count, size),
            environ_get: (addresses, at) => this.putWords(this.env, addresses, at),
            proc_exit: (status) => {
                throw new Exit(status);
            },
        };
    }

    ofFiles() {
        return {
            fd_read: (fd, parts, count, done) => attempt(() => this.move(fs.readSync, fd, parts, count, done)),
            fd_write: (fd, parts, count, done) => attempt(() => this.move(fs.writeSync, fd, parts, count, done)),
            fd_close: (fd) => attempt(() => this.close(fd)),
            fd_sync: (fd) => attempt(() => fs.fsyncSync(this.file(fd))),
            fd_datasync: (fd) => attempt(() => fs.fdatasyncSync(this.file(fd))),
            fd_fdstat_get: (fd, at) => attempt(() => this.putKind(fd, at)),
            fd_filestat_get: (fd, at) => attempt(() => this.putStat(fs.fstatSync(this.file(fd), { bigint: true }), at)),
            fd_filestat_set_size: (fd, size) => attempt(() => fs.ftruncateSync(this.file(fd), Number(size))),
            fd_prestat_get: (fd, at) => attempt(() => this.putRoot(fd, at)),
            fd_prestat_dir_name: (fd, at, size) =>
                attempt(() => this.bytes(at, size).set(encoder.encode(ROOTS[fd - 3]).subarray(0, size))),
        };
    }

    ofPaths() {
        const path = (root, at, size) => this.path(root, at, size);
        return {
            path_open: (root, follow, at, size, how, rights, inherited, flags, opened) => attempt(() => {
                const fd = this.open(path(root, at, size), openFlags(how, rights, flags));
                this.view.setUint32(opened, fd, true);
            }),
            path_filestat_get: (root, follow, at, size, found) => attempt(() => {
                const stat = follow & 1 ? fs.statSync : fs.lstatSync;
                this.putStat(stat(path(root, at, size), { bigint: true }), found);
            }),
            path_readlink: (root, at, size, buffer, room, used) =>
                attempt(() => this.putLink(path(root, at, size), buffer, room, used)),
            path_unlink_file: (root, at, size) => attempt(() => fs.unlinkSync(path(root, at, size))),
            path_rename: (root, at, size, newRoot, to, toSize) =>
                attempt(() => this.rename(path(root, at, size), path(newRoot, to, toSize))),
        };
    }
}

/**
 * Runs a compiled program, and returns its exit status. `args` are its arguments, `env` is its environment, and `stdio`
 * are the descriptors of its standard streams.
 */
export function run(module, { args, env, stdio = [0, 1, 2] }) {
    const system = new System({ args, env, stdio });
    const { exports } = new WebAssembly.Instance(module, { wasi_snapshot_preview1: system.imports() });
    system.memory = exports.memory;
    try {
        exports._start();
    } catch (error) {
        if (error instanceof Exit) {
            return error.status;
        }
        throw error;
    }
    return 0;
}
