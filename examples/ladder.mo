// This model is a ladder of two RC cells after a step of 5 V (R = 1 kOhm and C = 1 uF in each cell). The file
// ladder.cert is a certificate of this model.
// Units: the model uses ms and V.
// Look at the voltages v1 and v2. The command ./qss certify examples/ladder.mo examples/ladder.cert prints the
// certified bounds.
// Plot: tools/qss-plot examples/ladder.mo --names v1+v2
model ladder "RC ladder of two cells"
  Real v1(start = 0, unit = "V"), v2(start = 0, unit = "V");
equation
  der(v1) = 5 - 2*v1 + v2;
  der(v2) = v1 - v2;
  annotation(experiment(StopTime = 16, QSS_CoefBits = 8, QSS_TickBits = 14, QSS_LevelBits = 10, QSS_Quantum = 0.015625, QSS_TimeUnit = "ms"));
end ladder;
