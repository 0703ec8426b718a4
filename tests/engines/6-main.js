// The run.

state = Number(args[0]) >>> 0 || 1;
if (args[2] === 'fixed') fixedCalls();
for (const limit = calls + Number(args[1]); calls < limit; ) someWorld(limit);
// Every number of a validation, every ending of a page, every way of being named and every place of a released number occurs, where there are calls
// enough: else the last lines are missing.
if (args[2] === 'fixed' || calls >= 20000) {
  if (ended.includes(0)) throw new Error('how often each number ended a validation: ' + ended);
  if (Object.values(paged).includes(0)) throw new Error('how often a page was shown, and refused: ' + JSON.stringify(paged));
  if (Object.values(released).includes(0)) throw new Error('how often objects were released, numbers taken again, and each way of being named refused: ' + JSON.stringify(released));
  if (Object.values(refusedReleased).includes(0)) throw new Error('how often a released number was refused in each place: ' + JSON.stringify(refusedReleased));
}
flush();
