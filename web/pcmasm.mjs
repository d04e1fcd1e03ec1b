// node web/pcmasm.mjs WORDS ..: the program pcmasm, in node's engine.
import {start} from './program.mjs';

start('pcmasm');
