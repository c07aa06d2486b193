'use strict';
// letter LINES: what one inserted letter costs through the binding for Node, in nanoseconds of the processor: the least of many short rounds.
const path = require('path');
const { TextDocument } = require(path.join(__dirname, '../../bindings/node'));

const LINE = '    let answer = question.map(|x| x+1);\n';
const COUNT = 200;
const lines = Number(process.argv[2] || 1000);

function round() {
  const document = TextDocument.create('file:///a', 'plain', 0, LINE.repeat(lines));
  const start = process.cpuUsage();
  for (let number = 0; number < COUNT; number++) {
    const at = { line: (number * 7919) % lines, character: 8 };
    TextDocument.update(document, [{ range: { start: at, end: at }, text: 'x' }], number);
  }
  const { user, system } = process.cpuUsage(start);
  return (user + system) * 1000 / COUNT;
}

console.log(Math.min(...Array.from({ length: 60 }, round)).toFixed(0));
