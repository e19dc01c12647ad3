//# columns : the script that shows the columns of a block: its lines, its register code, its moves with what the passes made, and its cycles
const all=joinAll(stagesOf(find('source').textContent)),picks=[];
function pick(element,line,item){
element.classList.add('pick');
picks.push({element,line,item});
element.onclick=()=>mark(line,item);
return element;
}
const rows=list=>make('table','',...list.map(cells=>make('tr','',...cells)));
const lineRow=(block,step)=>[make('td','dim',''+step.line),pick(make('td','',step.text),block.proc+':'+step.line),make('td','dim',step.place)];
//# cells : the script that shows a move with what the passes made of it, and the moves of a cycle
const why={'after bypass':'bypassed','after share':'shared: the port has it','after dead':'dropped: nothing reads it'};
function fate(item){
const told=item.was.map(([what,text])=>(why[what]||what)+': '+text);
return [...told,...item.gone?[why[item.gone]||item.gone]:[]].join(newline);
}
function moveRow(item){
const text=item.text||item.was[0][1];
return [pick(make('td',item.gone?'gone':'',text),item.line,item),pick(make('td','why',fate(item)),item.line,item)];
}
function cycleRow(block,row){
const slots=block.slots.filter(slot=>slot.address==row.address).map(slot=>pick(make('span','slot',slot.text),slot.item&&slot.item.line,slot.item));
return [make('td','dim',''+row.address),make('td','slots',...slots)];
}
//# bands : the script that shows all blocks, a band of a tint each
function band(block){
const head=make('div','why',block.name+': '+block.origin.replace(/^steps of [^ ]+ /,'').replace(/ ([0-9]+)$/,(m,k)=>block.kind=='steps'?' to '+k:m));
const ends=block.own.length?rows(block.own.map(step=>lineRow(block,step))):'';
const code=rows(block.code.map(step=>[pick(make('td','',step.text),step.line)]));
const live=make('div','dim','then live: '+(block.live.join(' ')||'none'));
const cycles=make('div','dim',block.cycles+(block.cycles==1?' cycle':' cycles')+' from address '+block.address);
const cells=[[head,ends],[code,live],[rows(block.items.map(moveRow))],[rows(block.rows.map(row=>cycleRow(block,row))),cycles]];
return make('tr',block.tint,...cells.map(inner=>make('td','',...inner)));
}
const titles=['program','register code','moves, and what the passes made of them','cycles'];
find('stages').append(make('tr','',...titles.map(title=>make('th','',title))),...all.code.map(band));
//# homes : the script that shows the intervals of homes as bars over the lines of a procedure
function homesOf(proc){
const own=all.variables.filter(v=>v.proc==proc&&v.last!==undefined),blocks=all.blocks.filter(b=>b.proc==proc);
const first=Math.min(...blocks.map(b=>b.first))-1,width=100/(Math.max(...blocks.map(b=>b.last))-first+1);
const bar=(v,k)=>{
const element=make('div','bar tint'+k%6,v.name+' '+v.span),from=v.first?v.first-first:0,to=v.last?v.last-first:0;
element.style.left=from*width+'%';
element.style.width=(to-from+1)*width+'%';
return element;
};
const homes=[...new Set(own.map(v=>v.home))];
const row=home=>[make('td','',home),make('td','',make('div','span',...own.map((v,k)=>v.home==home?bar(v,k):'')))];
return [make('h2','','homes of '+proc+', over its lines'),rows(homes.map(row))];
}
find('homes').append(...[...new Set(all.variables.map(v=>v.proc))].flatMap(homesOf));
//# marks : the script that marks what became of a line, and tells it
const lines=[...new Set(picks.map(p=>p.line).filter(line=>line))];
let at=-1;
const cyclesOf=slots=>{
const at=[...new Set(slots.map(slot=>slot.address))].sort((a,b)=>a-b);
return at.length?(at.length>1?'addresses ':'address ')+at.join(' '):'no cycle';
};
function toldOf(line,item){
if(item)return [item.text,...fate(item).split(newline),item.slot?'at address '+item.slot.address:''].filter(text=>text).join(' | ');
const items=all.code.flatMap(b=>b.items).filter(i=>i.line==line),gone=items.filter(i=>i.gone).length;
return line.replace(':',' line ')+': '+items.length+' moves, '+gone+' left out, '+cyclesOf(items.filter(i=>i.slot).map(i=>i.slot));
}
//# mark : the script that marks a line, and a move with the start or the reads of its result
function mark(line,item){
at=lines.indexOf(line);
const result=item&&(item.starts||item.result);
for(const p of picks){
p.element.classList.toggle('line',!!line&&p.line==line);
p.element.classList.toggle('item',!!item&&p.item==item);
p.element.classList.toggle('result',!!result&&!!p.item&&p.item!=item&&(p.item.starts==result||p.item.result==result));
}
find('told').textContent=line?toldOf(line,item):'';
}
//# keys : the script of keys and buttons of such a page, and its end
function go(by){
const to=Math.max(0,Math.min(lines.length-1,at+by)),first=picks.find(p=>p.line==lines[to]);
mark(lines[to]);
if(first)first.element.scrollIntoView({block:'center'});
}
function bars(){find('homes').hidden=!find('homes').hidden;}
find('back').onclick=()=>go(-1);
find('on').onclick=()=>go(1);
find('bars').onclick=bars;
onKeys({j:()=>go(1),k:()=>go(-1),Escape:()=>mark(),h:bars,'+':()=>resize(1.1),'-':()=>resize(1/1.1)});
