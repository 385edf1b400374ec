// A program on Node.js alone, whose stat bypasses the C library: it looks at the chips' names and opens one.
'use strict';
const fs = require('fs');

const status = fs.statSync('/dev/gpiochip1');
const listed = fs.readdirSync('/dev').filter((name) => name.startsWith('gpiochip')).length;
const subsystem = fs.realpathSync('/sys/bus/gpio/devices/gpiochip1/subsystem');
const chip = fs.openSync('/dev/gpiochip1', 'r+');
fs.closeSync(chip);
fs.promises.open('/dev/gpiochip0', 'r').then((file) => {
  console.log(listed, status.isCharacterDevice(), status.rdev === 254 * 256 + 1, subsystem, file.fd > 0);
  return file.close();
});
