'use strict';
// Runs the program over arguments, variables, files and input in memory. Each run is a new instance of the module, as a
// process would be. Nothing here knows about units or numbers.
const program = (() => {
    // Causes of failure as Linux numbers them, negated, and the flags of open.
    const NO_SUCH_FILE = -2, BAD_DESCRIPTOR = -9, FILE_EXISTS = -17, IS_A_FOLDER = -21;
    const CREATE = 0o100, EXCLUSIVE = 0o200, TRUNCATE = 0o1000;
    // What a look-up of an argument or a variable gives instead of a length.
    const NO_ENTRY = -1n, TOO_LONG = -2n;
    // The program replaces a file only if it finds this folder, by which it sees whether its output goes to that file.
    const OPEN_STREAMS = '/proc/self/fd', FOLDER = {number: 0, pieces: [new Uint8Array()]};
    // A byte order mark is a letter of a name, so the decoder keeps it.
    const encoder = new TextEncoder(), decoder = new TextDecoder('utf-8', {ignoreBOM: true});

    const bytesOf = text => typeof text === 'string' ? encoder.encode(text) : text;

    function concatenate(pieces) {
        const all = new Uint8Array(pieces.reduce((length, piece) => length + piece.length, 0));
        let at = 0;
        for (const piece of pieces) {
            all.set(piece, at);
            at += piece.length;
        }
        return all;
    }

    // The files of one run by name. A file is a list of pieces, so that writing it costs what is written.
    class Files {
        constructor(files) {
            this.byName = new Map();
            this.created = 0;
            for (const [name, content] of files) this.put(name, bytesOf(content));
        }

        put(name, bytes) {
            const file = {number: ++this.created, pieces: [bytes]};
            this.byName.set(name, file);
            return file;
        }

        find(name) { return name === OPEN_STREAMS ? FOLDER : this.byName.get(name); }

        open(name, flags) {
            if (name === OPEN_STREAMS) return IS_A_FOLDER;
            const file = this.byName.get(name);
            if (!file) return flags & CREATE ? this.put(name, new Uint8Array()) : NO_SUCH_FILE;
            if (flags & EXCLUSIVE) return FILE_EXISTS;
            if (flags & TRUNCATE) file.pieces = [new Uint8Array()];
            return file;
        }

        rename(from, to) {
            const file = this.byName.get(from);
            if (!file) return NO_SUCH_FILE;
            if (to === OPEN_STREAMS) return IS_A_FOLDER;
            this.byName.delete(from);
            this.byName.set(to, file);
            return 0;
        }
    }

    function contentOf(file) {
        if (file.pieces.length !== 1) file.pieces = [concatenate(file.pieces)];
        return file.pieces[0];
    }

    // The input of a run, as pieces of which a read returns at most one, and the output by turns: what was written
    // before the first piece was read, between the first and the second, and so on.
    class Streams {
        constructor(pieces) {
            this.pieces = pieces;
            this.next = 0;
            this.rest = new Uint8Array();
            this.turns = [{out: [], err: []}];
        }

        isEmpty() { return this.rest.length === 0 && this.next === this.pieces.length; }

        read(room) {
            if (this.rest.length === 0 && this.next < this.pieces.length) {
                this.rest = this.pieces[this.next++];
                this.turns.push({out: [], err: []});
            }
            const bytes = this.rest.subarray(0, room);
            this.rest = this.rest.subarray(bytes.length);
            return bytes;
        }

        write(isError, bytes) {
            const turn = this.turns[this.turns.length - 1];
            (isError ? turn.err : turn.out).push(bytes);
        }
    }

    // The functions that runtime.c imports. `memory` returns the memory of the instance, which moves as it grows.
    function hostOf(memory, texts, files, streams) {
        const opened = new Map();
        let nextDescriptor = 3;
        const nameAt = at => {
            const bytes = memory(), from = Number(at);
            return decoder.decode(bytes.subarray(from, bytes.indexOf(0, from)));
        };
        const store = (bytes, at) => {
            memory().set(bytes, Number(at));
            return BigInt(bytes.length);
        };
        const entry = (list, i, at, room) => {
            if (i >= BigInt(list.length)) return NO_ENTRY;
            const text = list[Number(i)], part = text.subarray(0, Number(room));
            const length = store(part, at);
            return part.length < text.length ? TOO_LONG : length;
        };
        const found = (fd, at) => {
            const name = nameAt(at);
            return name ? files.find(name) : opened.get(fd)?.file;
        };
        return {
            word: (i, at, room) => entry(texts.words, i, at, room),
            variable: (i, at, room) => entry(texts.variables, i, at, room),
            open(at, flags) {
                const file = files.open(nameAt(at), flags);
                if (typeof file === 'number') return BigInt(file);
                opened.set(nextDescriptor, {file, at: 0});
                return BigInt(nextDescriptor++);
            },
            close: fd => BigInt(opened.delete(fd) ? 0 : BAD_DESCRIPTOR),
            read(fd, at, room) {
                if (fd === 0) return store(streams.read(Number(room)), at);
                const from = opened.get(fd);
                if (!from) return BigInt(BAD_DESCRIPTOR);
                const bytes = contentOf(from.file).subarray(from.at, from.at + Number(room));
                from.at += bytes.length;
                return store(bytes, at);
            },
            write(fd, at, count) {
                const bytes = memory().slice(Number(at), Number(at + count));
                if (fd === 1 || fd === 2) streams.write(fd === 2, bytes);
                else if (opened.has(fd)) opened.get(fd).file.pieces.push(bytes);
                else return BigInt(BAD_DESCRIPTOR);
                return count;
            },
            find: (fd, at) => BigInt(found(fd, at)?.number ?? NO_SUCH_FILE),
            length: (fd, at) => BigInt(contentOf(found(fd, at)).length),
            rename: (from, to) => BigInt(files.rename(nameAt(from), nameAt(to))),
            remove: at => BigInt(files.byName.delete(nameAt(at)) ? 0 : NO_SUCH_FILE),
            random(at, count) {
                store(crypto.getRandomValues(new Uint8Array(Number(count))), at);
                return 0n;
            },
        };
    }

    // One run: its files, its streams, and its instance of the module, whose imports `imported` may replace.
    function prepare(module, {words = [], variables = [], files = [], input = []}, imported = host => host) {
        const store = new Files(files), streams = new Streams(input.map(bytesOf));
        const texts = {words: ['units', ...words].map(bytesOf), variables: variables.map(bytesOf)};
        let exports = null;
        const host = hostOf(() => new Uint8Array(exports.memory.buffer), texts, store, streams);
        exports = new WebAssembly.Instance(module, {host: imported(host, streams)}).exports;
        return {store, streams, exports};
    }

    const reasonOf = fault => `The browser ended this run before the program did (${fault.message}).`;
    const bytesOfTurns = turns => turns.map(({out, err}) => ({out: concatenate(out), err: concatenate(err)}));
    const textsOfTurns = turns => turns.map(({out, err}) => ({out: decoder.decode(out), err: decoder.decode(err)}));
    const contentsOf = store => new Map([...store.byName].map(([name, file]) => [name, contentOf(file)]));

    // Runs the module once. `input` is a list of pieces, and `files` a list of [name, content].
    // Returns the status, both streams as text, both by turns, the files after the run, and `trap`: why the browser
    // ended the run before the program did, or null. The result refers to no memory of the run.
    function run(module, given) {
        let status = null, trap = null, prepared = null;
        try {
            prepared = prepare(module, given);
            status = prepared.exports.run();
        } catch (fault) {
            trap = reasonOf(fault);
        }
        const turns = bytesOfTurns(prepared?.streams.turns ?? []);
        return {
            status, trap,
            out: decoder.decode(concatenate(turns.map(turn => turn.out))),
            err: decoder.decode(concatenate(turns.map(turn => turn.err))),
            turns: textsOfTurns(turns),
            files: prepared ? contentsOf(prepared.store) : new Map(),
        };
    }

    // A run that waits for more input instead of reading its end. Only some browsers can suspend a run.
    class Conversation {
        static get isPossible() {
            return typeof WebAssembly.Suspending === 'function' && typeof WebAssembly.promising === 'function';
        }

        constructor(module, given) {
            this.shown = 0;
            this.trap = null;
            this.arrive = this.resume = () => {};
            this.prepared = prepare(module, given, (host, streams) => ({
                ...host, read: new WebAssembly.Suspending((fd, at, room) => this.read(host, streams, fd, at, room)),
            }));
        }

        read(host, streams, fd, at, room) {
            if (fd !== 0 || !streams.isEmpty()) return host.read(fd, at, room);
            this.arrive();
            return new Promise(done => { this.resume = () => done(host.read(fd, at, room)); });
        }

        // The turns and the files when the run waits again, or has ended, after `proceed`.
        async after(proceed) {
            const arrived = new Promise(done => { this.arrive = done; });
            proceed();
            await Promise.race([arrived, this.ended]);
            const {streams, store} = this.prepared, turns = textsOfTurns(bytesOfTurns(streams.turns.slice(this.shown)));
            this.shown = streams.turns.length;
            return {turns, trap: this.trap, files: contentsOf(store)};
        }

        start() {
            return this.after(() => {
                this.ended = WebAssembly.promising(this.prepared.exports.run)()
                    .catch(fault => { this.trap = reasonOf(fault); });
            });
        }

        enter(piece) {
            this.prepared.streams.pieces.push(bytesOf(piece));
            return this.after(this.resume);
        }
    }

    return {run, Conversation};
})();

if (typeof module !== 'undefined') module.exports = program;
