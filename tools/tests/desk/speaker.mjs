// node speaker.mjs: what the speaker of the page's engine answers to questions on standard input, as JSON.
import fs from 'node:fs';

import {Speaker} from '../../../web/desk/sound.mjs';

const {changes, until, questions} = JSON.parse(fs.readFileSync(0)), speaker = new Speaker(changes, until);
const answers = questions.map(([method, ...values]) => speaker[method](...values));
console.log(JSON.stringify(answers, (_, it) => (it instanceof Uint8Array ? [...it] : it)));
