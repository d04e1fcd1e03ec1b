// node page.mjs ADDRESS: how a page of the desk at this address asks what stands on standard input, a line of JSON each:
// by the page's own module served.js. With STANDS_IN the programs that PCBOARD and the like name stand in for the library.
import readline from 'node:readline';

import './asking.mjs';

const {answer_of} = await import('../../toolbox/desk/page/served.js');
for await (const line of readline.createInterface({input: process.stdin})) {
  let answer;
  try {
    const question = JSON.parse(line);
    answer = await answer_of(question);
    while (answer.working) answer = await answer_of({do: 'wait', board: question.board});
  } catch (error) {
    answer = {error: error.message};
  }
  process.stdout.write(`${JSON.stringify(answer)}\n`);
}
process.exit(0);
