// node following.mjs FILE ..: answers the cases of following/ that ask for calls, as the desk's engine follows them, a line
// of JSON each. What instructions do the program tells that PCPROBE names.
import fs from 'node:fs';

import {Follower, Out, asksForStack, marksOf} from '../../../web/desk/following.mjs';
import {Native} from './native.mjs';

const registersOf = words => Object.fromEntries(Object.entries(words).map(([name, digits]) => [name, parseInt(digits, 16)]));
const library = new Native({pcprobe: process.env.PCPROBE});
const isFollowed = line => / (start|entry) /.test(line);

const ANSWERS = {
  // The return that ends the routine that runs at a clock.
  out({follower, marks, begin}) {
    for (const mark of marks) if (mark.clock < begin) follower.follow(mark);
    const way = new Out(follower, follower.nest.at(-1) ?? null);
    return marks.find(mark => mark.clock >= begin && way.ends(mark))?.clock ?? null;
  },
  // The return that ends what the first line calls.
  over({follower, marks: [first, ...marks]}) {
    follower.follow(first);
    const way = new Out(follower, follower.nest.at(-1));
    return marks.find(mark => way.ends(mark))?.clock ?? null;
  },
  // When the calls under way began, the innermost first.
  callers({follower, marks}) {
    for (const mark of marks) follower.follow(mark);
    return follower.nest.map(frame => frame.clock).reverse();
  },
};

for (const file of process.argv.slice(2)) {
  const given = JSON.parse(fs.readFileSync(file)), answer = ANSWERS[given.ask];
  if (!answer) continue;
  const marks = marksOf(given.lines.filter(isFollowed), library);
  for (const mark of marks) if (asksForStack(mark)) mark.state = registersOf(given.states[String(mark.clock + 1)]);
  const found = answer({follower: new Follower(registersOf(given.state)), marks, begin: given.begin});
  console.log(JSON.stringify({file, is: JSON.stringify(found) === JSON.stringify(given.answer), found}));
}
