// Runs a program for wasm32-wasi: node --no-warnings scripts/run-guest.mjs PROGRAM.wasm [ARGUMENTS]
// Of the files it sees those of the folder that it is run in, by relative paths.
import { readFile } from "node:fs/promises";
import { WASI } from "node:wasi";

const args = process.argv.slice(2);
const wasi = new WASI({ version: "preview1", args, env: {}, preopens: { ".": process.cwd() }, returnOnExit: true });
const imports = wasi.getImportObject();
// through a function of its own: called directly, node 20 on Arm has crashed where a guest printed after its memory had grown
const { fd_write } = imports.wasi_snapshot_preview1;
imports.wasi_snapshot_preview1.fd_write = (...words) => fd_write(...words);
const { instance } = await WebAssembly.instantiate(await readFile(args[0]), imports);
process.exitCode = wasi.start(instance);
