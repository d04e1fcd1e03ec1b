// node web/pcboard.mjs WORDS ..: the program pcboard, in node's engine.
import {start} from './program.mjs';

start('pcboard');
