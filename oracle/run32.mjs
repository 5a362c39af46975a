// Runs the 32-bit oracle: node --no-warnings run32.mjs ORACLE.wasm [ARGUMENTS] < LINES
import "../scripts/run-guest.mjs";
