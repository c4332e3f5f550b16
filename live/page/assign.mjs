// Setting several fields of an object, so that `tsc` checks their names and types.

/** Set fields of an object, and return it. Unlike with Object.assign, a misspelt field is an error.
 * @template {object} Target
 * @param {Target} target
 * @param {Partial<Target>} fields
 */
export const assign = (target, fields) => Object.assign(target, fields);
