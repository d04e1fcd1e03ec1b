// node web/pcprobe.mjs WORDS ..: the program pcprobe, in node's engine.
import {start} from './program.mjs';

start('pcprobe');
