// Three-phase source as a ring of three states, with a star of R and L and a fourth phase-to-neutral resistor; 50 periods
model threephase
  parameter Real V = 325 "V", w = 314.159265 "1/s", g = w/1.7320508075688772, R = 2 "Ohm", L = 5e-3 "H";
  Real va(start = V, unit = "V"), vb(start = -V/2, unit = "V"), vc(start = -V/2, unit = "V");
  Real ia(unit = "A"), ib(unit = "A"), ic(unit = "A");
equation
  der(va) = g*(vb - vc);
  der(vb) = g*(vc - va);
  der(vc) = g*(va - vb);
  der(ia) = (va - R*ia)/L;
  der(ib) = (vb - R*ib)/L;
  der(ic) = (vc - R*ic)/L;
  annotation(experiment(StopTime = 1));
end threephase;
