// The library's calls, answered by the programs that the environment names.
import {Native} from './native.mjs';

const {PCBOARD, PCPROBE, PCMASM} = process.env;

export class Zebludor extends Native {
  constructor() {
    super({pcboard: PCBOARD, pcprobe: PCPROBE, pcmasm: PCMASM});
  }
}
