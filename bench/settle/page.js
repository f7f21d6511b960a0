#!/usr/bin/env node
// Settles an auction by the script of examples/auction.html: page.js AUCTION JOURNALS [--check OUTCOME]. It prints and ends as
// `house_main settle` does; with --check it prints `equal`, or the first line that differs and ends with status 1.
"use strict";
const fs = require("node:fs");
const path = require("node:path");

const page = fs.readFileSync(path.join(__dirname, "../../examples/auction.html"), "utf8");
const script = page.slice(page.indexOf("<script>") + 8, page.indexOf("</script>"));
const settling = { exports: {} };
new Function("module", script)(settling);
const { Auction, Broken, Ends, compared, readClock, settle, textOf } = settling.exports;

const bytes = (name) => (fs.existsSync(name) ? new Uint8Array(fs.readFileSync(name)) : new Uint8Array());

function run(file, folder) {
  const auction = new Auction(bytes(file));
  const clocks = [];
  for (let number = 0; number <= auction.bidders.length; number += 1) {
    try {
      clocks.push(readClock(bytes(path.join(folder, `clock-${String(number).padStart(2, "0")}.ahj`)), number, auction));
    } catch (fault) {
      if (!(fault instanceof Broken)) throw fault;
      throw new Ends(8, `bad journal clock ${number} record ${fault.record} fault ${fault.fault}`);
    }
  }
  return textOf(auction, clocks, settle(auction, clocks));
}

function check(text, outcome) {
  const other = compared(text, fs.readFileSync(outcome, "utf8"));
  process.stdout.write(other ? `line ${other.line}: settled ${other.own}, but ${outcome} has ${other.its}\n` : "equal\n");
  process.exitCode = other ? 1 : 0;
}

try {
  const [, , auction, journals, option, outcome] = process.argv, text = run(auction, journals);
  if (option === "--check") check(text, outcome);
  else process.stdout.write(text);
} catch (end) {
  if (!(end instanceof Ends)) throw end;
  process.stdout.write(`${end.message}\n`);
  process.exitCode = end.status;
}
