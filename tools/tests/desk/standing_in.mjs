// The library is answered by the programs themselves.
export async function resolve(name, context, next) {
  return name.endsWith('/zebludor.mjs') ? next('./stand_in.mjs', {...context, parentURL: import.meta.url}) : next(name, context);
}
