// This model is a full bridge rectifier at 50 Hz with a smoothing capacitor. An oscillator of two states generates the
// sine voltage, and a clock sets this oscillator anew in each period, so that its amplitude never grows.
// Units: the model uses ms, V, A, Ohm and mF.
// Look at the voltage uC, and at charge, the current of the rectifier, which flows in pulses.
// Plot: tools/qss-plot examples/rectifier.mo --names vs+uC,charge
model rectifier "full bridge rectifier"
  parameter Real w = 0.314159265 "rad per ms", amp = 325 "V", rs = 2 "Ohm", C = 1 "mF", R = 100 "Ohm";
  Real vs(start = 0, unit = "V") annotation(QSS_Quantum = 0.125), vc(start = amp) annotation(QSS_Quantum = 0.125), uC(start = 0, unit = "V"), charge(unit = "A");
  discrete Real pos(start = 0), neg(start = 0), sync(start = 20);
equation
  der(vs) = w*vc;
  der(vc) = -w*vs;
  charge = pos*(vs - uC)/rs - neg*(vs + uC)/rs;
  der(uC) = (charge - uC/R)/C;
algorithm
  when vs > uC then
    pos := 1;
  elsewhen vs < uC then
    pos := 0;
  end when;
  when -vs > uC then
    neg := 1;
  elsewhen -vs < uC then
    neg := 0;
  end when;
  when time >= sync then
    reinit(vs, 0);
    reinit(vc, amp);
    sync := pre(sync) + 20;
  end when;
  annotation(experiment(StopTime = 100, QSS_CoefBits = 30, QSS_TickBits = 12, QSS_LevelBits = 16, QSS_Quantum = 0.125, QSS_TimeUnit = "ms"));
end rectifier;
