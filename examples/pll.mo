// This model is a linear phase model of a phase locked loop of second order. The input frequency steps by 0.1 rad/us.
// Units: the model uses us and rad.
// Look at the phase error err, which returns to 0. The program prints no rows of err, because it is an algebraic
// variable, so tools/qss-plot computes err from the rows of the states.
// Plot: tools/qss-plot examples/pll.mo --names refphase+vcophase,err
model pll "phase locked loop, linear"
  parameter Real zeta = 0.7, wn = 0.5;
  Real refphase(unit = "rad"), vcophase(unit = "rad"), integ, err(unit = "rad");
  discrete Real freq;
equation
  der(refphase) = freq;
  err = refphase - vcophase;
  der(integ) = wn^2*err;
  der(vcophase) = integ + 2*zeta*wn*err;
algorithm
  when time >= 5 then
    freq := 0.1;
  end when;
  annotation(experiment(StopTime = 40, QSS_CoefBits = 20, QSS_TickBits = 12, QSS_LevelBits = 20, QSS_Quantum = 0.00048828125, QSS_TimeUnit = "us"));
end pll;
