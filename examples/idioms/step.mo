// A step: a source that is 0 V at first and 5 V from 2 ms on, with an RC low pass (1 kOhm, 1 uF) behind it.
// Units: ms, V, mA, kOhm, uF. Look at u and v: v is 5*(1 - exp(-(t - 2))) after the step.
// Plot: tools/qss-plot examples/idioms/step.mo --names u,v
model step "A step"
  parameter Real U = 5 "V", begin = 2 "ms", R = 1 "kOhm", C = 1 "uF";
  Real v(start = 0, unit = "V") annotation(QSS_Quantum = 1/256);
  discrete Real u(start = 0, unit = "V");
equation
  der(v) = (u - v)/(R*C);
algorithm
  when time >= begin then
    u := U;
  end when;
  annotation(experiment(StopTime = 8, QSS_CoefBits = 20, QSS_TickBits = 10, QSS_LevelBits = 20, QSS_Quantum = 1/256, QSS_TimeUnit = "ms"));
end step;
