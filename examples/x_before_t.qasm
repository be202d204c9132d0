OPENQASM 2.0;
include "qelib1.inc";
qreg q[1];
x q[0];
t q[0];
x q[0];
